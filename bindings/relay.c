/* The functions of include/crafty.h for a machine that cannot link the archive: each asks a process of host.c, which
 * runs under an emulator. Only for tests: a call that fails ends the program, and one thread may call at a time.
 * HOST is the command of that process, in words for the shell. */
#include "calls.h"

#include <stdio.h>
#include <stdlib.h>
#include <string.h>
#include <unistd.h>

static FILE *to_host, *from_host;

static void fail(const char *why)
{
    fprintf(stderr, "relay: %s\n", why);
    exit(1);
}

static void start(void)
{
    int asked[2], answered[2];
    if (pipe(asked) != 0 || pipe(answered) != 0) fail("no pipe");
    pid_t process = fork();
    if (process < 0) fail("no process");
    if (process == 0) {
        dup2(asked[0], 0);
        dup2(answered[1], 1);
        close(asked[1]);
        close(answered[0]);
        execl("/bin/sh", "sh", "-c", "exec " HOST, (char *)NULL);
        fail("no shell");
    }
    close(asked[0]);
    close(answered[1]);
    to_host = fdopen(asked[1], "w");
    from_host = fdopen(answered[0], "r");
    if (to_host == NULL || from_host == NULL) fail("no stream");
}

static void put(const void *from, size_t bytes)
{
    if (fwrite(from, 1, bytes, to_host) != bytes) fail("the host does not read");
}

static void get(void *to, size_t bytes)
{
    if (fread(to, 1, bytes, from_host) != bytes) fail("the host does not answer");
}

static void call_host(const struct call *call, const void *input, const void *room)
{
    if (to_host == NULL) start();
    put(call, sizeof *call);
    put(input, call->input);
    put(room, call->room);
    if (fflush(to_host) != 0) fail("the host does not read");
}

static uint32_t bits_of(float number)
{
    uint32_t bits;
    memcpy(&bits, &number, sizeof bits);
    return bits;
}

static crafty_answer ask(struct call call, const uint8_t *input, void *room)
{
    uint64_t numbers[2];
    call_host(&call, input, room);
    get(numbers, sizeof numbers);
    get(room, call.room);
    return (crafty_answer){ (uint32_t)numbers[0], numbers[1] };
}

static crafty_answer ask_plain(enum function function, const uint8_t *input, size_t length, uint8_t *out, size_t room)
{
    return ask((struct call){ .function = function, .input = length, .room = room }, input, out);
}

crafty_answer crafty_replay(
    uint32_t player_job_level, uint32_t recipe_job_level, uint32_t base_progress_factor, uint32_t base_quality_factor,
    uint32_t step_max, uint32_t progress_target, uint32_t starting_quality, uint32_t quality_target,
    uint32_t durability_max, uint32_t cp_max, uint32_t is_expert, uint32_t action_pool, uint32_t player_is_specialist,
    uint32_t use_manipulation, uint32_t use_delineation, bool strict, const uint8_t *list, size_t list_length,
    uint32_t *out, size_t out_length)
{
    struct call call = {
        REPLAY,
        strict,
        { player_job_level, recipe_job_level, base_progress_factor, base_quality_factor, step_max, progress_target,
          starting_quality, quality_target, durability_max, cp_max, is_expert, action_pool, player_is_specialist,
          use_manipulation, use_delineation },
        list_length,
        out_length * sizeof *out,
    };
    return ask(call, list, out);
}

crafty_answer crafty_replay_text(const uint8_t *input, size_t input_length, uint8_t *out, size_t out_length)
{
    return ask_plain(REPLAY_TEXT, input, input_length, out, out_length);
}

crafty_answer crafty_print(const uint8_t *input, size_t input_length, uint8_t *out, size_t out_length)
{
    return ask_plain(PRINT, input, input_length, out, out_length);
}

crafty_answer crafty_read_list(const uint8_t *text, size_t text_length, uint8_t *out, size_t out_length)
{
    return ask_plain(READ_LIST, text, text_length, out, out_length);
}

crafty_answer crafty_write_list(const uint8_t *list, size_t list_length, uint8_t *out, size_t out_length)
{
    return ask_plain(WRITE_LIST, list, list_length, out, out_length);
}

crafty_answer crafty_macro_time(const uint8_t *list, size_t list_length)
{
    return ask_plain(MACRO_TIME, list, list_length, NULL, 0);
}

/* ---- trees. */

static crafty_solution call_over_tree(const struct call *call, const crafty_node *nodes, const void *room)
{
    uint64_t numbers[3];
    call_host(call, nodes, room);
    get(numbers, sizeof numbers);
    return (crafty_solution){ (uint32_t)numbers[0], numbers[1], numbers[2] };
}

/* Of records that may be written; there is no room. */
static crafty_answer change(struct call call, crafty_node *nodes, size_t length)
{
    call.input = length * sizeof *nodes;
    crafty_solution said = call_over_tree(&call, nodes, NULL);
    get(nodes, call.input);
    return (crafty_answer){ said.number, said.value };
}

/* Of records that are only read, and a room. */
static crafty_solution look(struct call call, const crafty_node *nodes, size_t length, void *room)
{
    call.input = length * sizeof *nodes;
    crafty_solution said = call_over_tree(&call, nodes, room);
    for (size_t i = 0; i < length; i++) {
        crafty_node node;
        get(&node, sizeof node);
        if (memcmp(&node, &nodes[i], sizeof node) != 0) fail("a record was written");
    }
    get(room, call.room);
    return said;
}

crafty_answer crafty_tree_new(crafty_node *nodes, size_t nodes_length, uint32_t unused)
{
    return change((struct call){ .function = TREE_NEW, .context = { [UNUSED] = unused } }, nodes, nodes_length);
}

crafty_answer crafty_tree_insert(
    crafty_node *nodes, size_t nodes_length, size_t count, size_t parent, uint8_t action, uint32_t unused)
{
    struct call call = {
        .function = TREE_INSERT,
        .context = { [COUNT] = count, [NODE] = parent, [ACTION] = action, [UNUSED] = unused },
    };
    return change(call, nodes, nodes_length);
}

crafty_answer crafty_tree_backpropagate(
    crafty_node *nodes, size_t nodes_length, size_t count, size_t start, size_t target, float score)
{
    struct call call = {
        .function = TREE_BACKPROPAGATE,
        .context = { [COUNT] = count, [NODE] = start, [TARGET] = target, [SCORE] = bits_of(score) },
    };
    return change(call, nodes, nodes_length);
}

crafty_answer crafty_tree_children(
    const crafty_node *nodes, size_t nodes_length, size_t *out, size_t out_length, size_t count, size_t node)
{
    struct call call = {
        .function = TREE_CHILDREN,
        .context = { [COUNT] = count, [NODE] = node },
        .room = out_length * sizeof *out,
    };
    crafty_solution said = look(call, nodes, nodes_length, out);
    return (crafty_answer){ said.number, said.value };
}

crafty_solution crafty_tree_solution(
    const crafty_node *nodes, size_t nodes_length, uint8_t *out, size_t out_length, size_t count)
{
    struct call call = { .function = TREE_SOLUTION, .context = { [COUNT] = count }, .room = out_length };
    return look(call, nodes, nodes_length, out);
}

/* ---- the search. */

crafty_found crafty_search(
    crafty_node *nodes, size_t nodes_length, const float *logs, size_t logs_length, const uint8_t *draws,
    size_t draws_length, uint8_t *out, size_t out_length, uint32_t player_job_level, uint32_t recipe_job_level,
    uint32_t base_progress_factor, uint32_t base_quality_factor, uint32_t step_max, uint32_t progress_target,
    uint32_t starting_quality, uint32_t quality_target, uint32_t durability_max, uint32_t cp_max, uint32_t is_expert,
    uint32_t action_pool, uint32_t player_is_specialist, uint32_t use_manipulation, uint32_t use_delineation,
    uint32_t iterations, float score_storage_threshold, float max_score_weighting_constant, float exploration_constant)
{
    struct call call = {
        SEARCH,
        0,
        { player_job_level, recipe_job_level, base_progress_factor, base_quality_factor, step_max, progress_target,
          starting_quality, quality_target, durability_max, cp_max, is_expert, action_pool, player_is_specialist,
          use_manipulation, use_delineation },
        nodes_length * sizeof *nodes,
        out_length,
    };
    struct search search = {
        iterations, bits_of(score_storage_threshold), bits_of(max_score_weighting_constant),
        bits_of(exploration_constant), logs_length * sizeof *logs, draws_length,
    };
    if (to_host == NULL) start();
    put(&call, sizeof call);
    put(&search, sizeof search);
    put(nodes, call.input);
    put(logs, search.logs);
    put(draws, search.draws);
    put(out, call.room);
    if (fflush(to_host) != 0) fail("the host does not read");

    crafty_found said;
    get(&said, sizeof said);
    get(nodes, call.input);
    get(out, call.room);
    return said;
}
