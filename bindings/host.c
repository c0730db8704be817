/* Calls the archive for another process, until standard input ends. */
#include "calls.h"

#include <stdio.h>
#include <stdlib.h>
#include <string.h>

/* Around the room, so that a byte written outside it is seen. */
enum { MARGIN = 64, MARK = 0x5A };

static void fail(const char *why)
{
    fprintf(stderr, "host: %s\n", why);
    exit(1);
}

static uint8_t *take(size_t bytes)
{
    uint8_t *place = malloc(bytes ? bytes : 1);
    if (place == NULL) fail("no memory");
    return place;
}

static void get(void *to, size_t bytes)
{
    if (fread(to, 1, bytes, stdin) != bytes) fail("a call that is cut");
}

static void put(const void *from, size_t bytes)
{
    if (fwrite(from, 1, bytes, stdout) != bytes) fail("no one reads the answers");
}

static crafty_answer answer(const struct call *call, const uint8_t *input, void *room)
{
    const uint64_t *c = call->context;
    switch (call->function) {
    case REPLAY:
        return crafty_replay(
            c[0], c[1], c[2], c[3], c[4], c[5], c[6], c[7], c[8], c[9], c[10], c[11], c[12], c[13], c[14],
            call->strict != 0, input, call->input, room, call->room / sizeof(uint32_t));
    case REPLAY_TEXT: return crafty_replay_text(input, call->input, room, call->room);
    case PRINT: return crafty_print(input, call->input, room, call->room);
    case READ_LIST: return crafty_read_list(input, call->input, room, call->room);
    case WRITE_LIST: return crafty_write_list(input, call->input, room, call->room);
    case MACRO_TIME: return crafty_macro_time(input, call->input);
    }
    fail("no such function");
    abort();
}

static float float_of(uint64_t bits)
{
    uint32_t low = bits;
    float number;
    memcpy(&number, &low, sizeof number);
    return number;
}

/* Of a tree; only its solution has a node. */
static crafty_solution tree_answer(const struct call *call, crafty_node *nodes, void *room)
{
    const uint64_t *c = call->context;
    size_t length = call->input / sizeof *nodes;
    crafty_answer said = { 0, 0 };
    switch (call->function) {
    case TREE_NEW: said = crafty_tree_new(nodes, length, c[UNUSED]); break;
    case TREE_INSERT:
        said = crafty_tree_insert(nodes, length, c[COUNT], c[NODE], c[ACTION], c[UNUSED]);
        break;
    case TREE_CHILDREN:
        said = crafty_tree_children(nodes, length, room, call->room / sizeof(size_t), c[COUNT], c[NODE]);
        break;
    case TREE_BACKPROPAGATE:
        said = crafty_tree_backpropagate(nodes, length, c[COUNT], c[NODE], c[TARGET], float_of(c[SCORE]));
        break;
    case TREE_SOLUTION: return crafty_tree_solution(nodes, length, room, call->room, c[COUNT]);
    default: fail("no such function");
    }
    return (crafty_solution){ said.number, said.value, 0 };
}

static crafty_found found(
    const struct call *call, const struct search *s, crafty_node *nodes, const float *logs, const uint8_t *draws, uint8_t *room)
{
    const uint64_t *c = call->context;
    return crafty_search(
        nodes, call->input / sizeof *nodes, logs, s->logs / sizeof *logs, draws, s->draws, room, call->room,
        c[0], c[1], c[2], c[3], c[4], c[5], c[6], c[7], c[8], c[9], c[10], c[11], c[12], c[13], c[14],
        s->iterations, float_of(s->threshold), float_of(s->weighting), float_of(s->exploration));
}

static void check_margin(const uint8_t *margin)
{
    for (size_t i = 0; i < MARGIN; i++)
        if (margin[i] != MARK) fail("a byte outside the room was written");
}

/* Room that holds what comes next on standard input. */
static uint8_t *lend(size_t bytes)
{
    uint8_t *around = take(bytes + 2 * MARGIN);
    memset(around, MARK, bytes + 2 * MARGIN);
    get(around + MARGIN, bytes);
    return around + MARGIN;
}

static void give_back(uint8_t *room, size_t bytes)
{
    check_margin(room - MARGIN);
    check_margin(room + bytes);
    put(room, bytes);
    free(room - MARGIN);
}

/* What may only be read, and a copy of it. */
struct input {
    uint8_t *lent, *given;
    size_t bytes;
};

static struct input get_input(size_t bytes)
{
    struct input input = { take(bytes), take(bytes), bytes };
    get(input.lent, bytes);
    memcpy(input.given, input.lent, bytes);
    return input;
}

static void end_input(struct input input)
{
    if (memcmp(input.given, input.lent, input.bytes) != 0) fail("the input was written");
    free(input.lent);
    free(input.given);
}

static void serve(const struct call *call)
{
    struct input input = get_input(call->input);
    uint8_t *room = lend(call->room);

    crafty_answer said = answer(call, input.lent, room);

    end_input(input);
    uint64_t numbers[] = { said.number, said.value };
    put(numbers, sizeof numbers);
    give_back(room, call->room);
}

static void serve_tree(const struct call *call)
{
    uint8_t *records = lend(call->input);
    uint8_t *room = lend(call->room);

    crafty_solution said = tree_answer(call, (crafty_node *)records, room);

    uint64_t numbers[] = { said.number, said.value, said.node };
    put(numbers, sizeof numbers);
    give_back(records, call->input);
    give_back(room, call->room);
}

static void serve_search(const struct call *call)
{
    struct search search;
    get(&search, sizeof search);
    uint8_t *records = lend(call->input);
    struct input logs = get_input(search.logs);
    struct input draws = get_input(search.draws);
    uint8_t *room = lend(call->room);

    crafty_found said = found(call, &search, (crafty_node *)records, (const float *)logs.lent, draws.lent, room);

    end_input(logs);
    end_input(draws);
    put(&said, sizeof said);
    give_back(records, call->input);
    give_back(room, call->room);
}

int main(void)
{
    struct call call;
    while (fread(&call, sizeof call, 1, stdin) == 1) {
        if (call.function < TREE_NEW) serve(&call);
        else if (call.function < SEARCH) serve_tree(&call);
        else serve_search(&call);
        if (fflush(stdout) != 0) fail("no one reads the answers");
    }
    return 0;
}
