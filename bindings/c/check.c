/* Checks of each function of include/crafty.h: an answer, each refusal, and what the room or the records hold then. */
#include "../../include/crafty.h"

#include <inttypes.h>
#include <math.h>
#include <stdio.h>
#include <string.h>

enum { ROOM = 1000, UNTOUCHED = 0xEE };

static int failed;
static uint8_t room[ROOM];

static void expect(bool holds, const char *what)
{
    if (holds) return;
    printf("failed: %s\n", what);
    failed = 1;
}

static void fill(void)
{
    memset(room, UNTOUCHED, ROOM);
}

/* The answer, and the room: the text from its start, and every other byte as it was. */
static void expect_text(crafty_answer answer, uint32_t number, size_t value, const char *text, const char *what)
{
    bool same = memcmp(room, text, strlen(text)) == 0;
    for (size_t i = strlen(text); i < ROOM; i++) same = same && room[i] == UNTOUCHED;
    expect(answer.number == number && answer.value == value, what);
    expect(same, what);
    fill();
}

static const uint8_t *bytes(const char *text)
{
    return (const uint8_t *)text;
}

static void check_lists(void)
{
    const char *text = "BasicTouch\nNope";
    static const uint8_t list[] = { 0, 1, 31 };
    static const uint8_t buff_first[] = { 5, 0, 0 };
    static uint8_t long_list[65537];

    long_list[65536] = 31; /* 13 comes before 3 */
    expect_text(crafty_read_list(bytes(text), 10, room, ROOM), CRAFTY_SUCCESS, 1, "\1", "a list is read");
    expect_text(crafty_read_list(bytes(text), 15, room, ROOM), CRAFTY_UNKNOWN_WORD, 11, "", "refusal 5");
    expect_text(crafty_read_list(bytes(text), 10, room, 0), CRAFTY_NO_ROOM, 1, "", "refusal 6 of a list read");
    expect_text(crafty_read_list(NULL, 0, NULL, 0), CRAFTY_SUCCESS, 0, "", "an empty text");
    expect_text(crafty_write_list(list, 2, room, 26), CRAFTY_SUCCESS, 26, "BasicSynthesis\nBasicTouch\n", "a list is written");
    expect_text(crafty_write_list(list, 2, room, 25), CRAFTY_NO_ROOM, 26, "", "refusal 6 of a list written");
    expect_text(crafty_write_list(list, 3, room, ROOM), CRAFTY_UNKNOWN_ACTION, 2, "", "refusal 3");
    expect_text(crafty_write_list(long_list, 65537, room, ROOM), CRAFTY_TOO_LONG, 0, "", "refusal 13");
    expect_text(crafty_macro_time(buff_first, 3), CRAFTY_SUCCESS, 5, "", "a list is timed");
    expect_text(crafty_macro_time(buff_first, 2), CRAFTY_SUCCESS, 2, "", "nothing waits for the last action");
    expect_text(crafty_macro_time(buff_first, 1), CRAFTY_SUCCESS, 0, "", "a list of one is timed");
    expect_text(crafty_macro_time(NULL, 0), CRAFTY_SUCCESS, 0, "", "an empty list is timed");
    expect_text(crafty_macro_time(long_list, 65536), CRAFTY_SUCCESS, 196605, "", "the longest list is timed");
    expect_text(crafty_macro_time(long_list, 65537), CRAFTY_TOO_LONG, 0, "", "refusal 13 of a list timed");
    expect_text(crafty_macro_time(list, 3), CRAFTY_UNKNOWN_ACTION, 2, "", "refusal 3 of a list timed");
}

/* ---- contexts, by the places of their fields. A line can say more than a field can hold. */

/* A set of every move, and one with bit 31. */
#define ALL_MOVES UINT32_C(0x7FFFFFFF)
#define NO_SET UINT32_C(0x80000000)

struct context {
    uint64_t at[CRAFTY_FIELDS];
};

#define CRAFT { { 50, 50, 100, 100, 8, 200, 0, 0, 40, 100, 0, 33, 0, 0, 0 } }

static const struct context craft = CRAFT;

/* The most that each field takes, and what is said where a check of it fails. */
static const struct limit {
    uint64_t most;
    const char *what;
} limits[CRAFTY_FIELDS] = {
    [CRAFTY_AT_PLAYER_JOB_LEVEL] = { UINT32_MAX, "the place of player_job_level" },
    [CRAFTY_AT_RECIPE_JOB_LEVEL] = { UINT32_MAX, "the place of recipe_job_level" },
    [CRAFTY_AT_BASE_PROGRESS_FACTOR] = { 200070, "the place of base_progress_factor" },
    [CRAFTY_AT_BASE_QUALITY_FACTOR] = { 200070, "the place of base_quality_factor" },
    [CRAFTY_AT_STEP_MAX] = { 255, "the place of step_max" },
    [CRAFTY_AT_PROGRESS_TARGET] = { 1000000, "the place of progress_target" },
    [CRAFTY_AT_STARTING_QUALITY] = { 1000000, "the place of starting_quality" },
    [CRAFTY_AT_QUALITY_TARGET] = { 1000000, "the place of quality_target" },
    [CRAFTY_AT_DURABILITY_MAX] = { 97, "the place of durability_max" },
    [CRAFTY_AT_CP_MAX] = { 1000000, "the place of cp_max" },
    [CRAFTY_AT_IS_EXPERT] = { 1, "the place of is_expert" },
    [CRAFTY_AT_ACTION_POOL] = { ALL_MOVES, "the place of action_pool" },
    [CRAFTY_AT_PLAYER_IS_SPECIALIST] = { 1, "the place of player_is_specialist" },
    [CRAFTY_AT_USE_MANIPULATION] = { 1, "the place of use_manipulation" },
    [CRAFTY_AT_USE_DELINEATION] = { 1, "the place of use_delineation" },
};

/* `ask` answers for a context. */
static void expect_place(crafty_answer (*ask)(const struct context *), const struct context *c, size_t place)
{
    crafty_answer answer = ask(c);
    expect(answer.number == CRAFTY_OUTSIDE_LIMITS && answer.value == place, limits[place].what);
}

/* Of each field from `first` on: the most is taken, one more is refused, and its place told whichever later field is
 * outside too. */
static void expect_places(crafty_answer (*ask)(const struct context *), size_t first)
{
    for (size_t i = first; i < CRAFTY_FIELDS; i++) {
        struct context c = craft;
        c.at[i] = limits[i].most;
        expect(ask(&c).number == CRAFTY_SUCCESS, limits[i].what);
        c.at[i]++;
        expect_place(ask, &c, i);
        for (size_t j = i + 1; j < CRAFTY_FIELDS; j++) {
            struct context both = c;
            both.at[j] = limits[j].most + 1;
            expect_place(ask, &both, i);
        }
    }
    struct context broken = craft;
    broken.at[CRAFTY_AT_DURABILITY_MAX] = 0;
    expect_place(ask, &broken, CRAFTY_AT_DURABILITY_MAX);
}

/* ---- texts. */

static const char input[] =
    "50 50 100 100 8 200 0 0 40 100 0 33 0 0 0\n"
    "Veneration BasicSynthesis BasicSynthesis\n";

static const char output[] =
    "    0/  200 progress |     0/    0 quality | 40/40 durability | 100/100 cp\n"
    "    0/  200 progress |     0/    0 quality | 40/40 durability |  82/100 cp\n"
    "  150/  200 progress |     0/    0 quality | 30/40 durability |  82/100 cp\n"
    "  300/  200 progress |     0/    0 quality | 20/40 durability |  82/100 cp\n"
    "finished 3F000000 executed 3 of 3\n";

/* Of a context's line alone, with no list. */
static crafty_answer replay_line(const struct context *c)
{
    char line[12 * CRAFTY_FIELDS];
    size_t length = 0;
    for (size_t i = 0; i < CRAFTY_FIELDS; i++)
        length += sprintf(line + length, "%" PRIu64 "%c", c->at[i], i + 1 < CRAFTY_FIELDS ? ' ' : '\n');
    crafty_answer answer = crafty_replay_text(bytes(line), length, room, ROOM);
    fill();
    return answer;
}

static void check_texts(void)
{
    size_t size = strlen(output);
    const char *refused = "refused 12\n";
    const char *outside = "50 50 100 100 256 200 0 0 40 100 0 33 0 0 0\n";
    static const uint8_t long_text[65537];

    expect_text(crafty_replay_text(bytes(input), strlen(input), room, size), CRAFTY_SUCCESS, size, output, "a text is replayed");
    expect_text(crafty_replay_text(bytes(input), strlen(input), room, size - 1), CRAFTY_NO_ROOM, size, "", "refusal 6 of a text");
    expect_text(crafty_replay_text(long_text, 65537, room, ROOM), CRAFTY_TOO_LONG, 0, "", "refusal 13 of a text");
    expect_text(crafty_replay_text(long_text, 65536, room, ROOM), CRAFTY_MALFORMED_LINE, 0, "", "refusal 12 of the longest text");
    expect_text(crafty_replay_text(bytes(input), 41, room, ROOM), CRAFTY_MALFORMED_LINE, 0, "", "refusal 12");
    expect_text(crafty_replay_text(bytes(outside), strlen(outside), room, ROOM), CRAFTY_OUTSIDE_LIMITS, 4, "", "refusal 1 of a text");
    expect_places(replay_line, CRAFTY_AT_PLAYER_JOB_LEVEL);
    expect_text(crafty_replay_text(bytes(input), 45, room, ROOM), CRAFTY_UNKNOWN_WORD, 42, "", "refusal 5 of a text");
    expect_text(crafty_print(bytes(input), strlen(input), room, ROOM), CRAFTY_SUCCESS, size, output, "a text is printed");
    expect_text(crafty_print(bytes(input), 41, room, 11), CRAFTY_SUCCESS, 11, refused, "a refusal is printed");
    expect_text(crafty_print(bytes(input), 41, room, 10), CRAFTY_NO_ROOM, 11, "", "refusal 6 of a refusal printed");
    expect_text(crafty_print(bytes(outside), strlen(outside), room, ROOM), CRAFTY_SUCCESS, 10, "refused 1\n", "no place is printed");
}

/* ---- replays. */

static crafty_answer replay_in(
    const struct context *c, bool strict, const uint8_t *list, size_t length, uint32_t *out, size_t numbers)
{
    const uint64_t *f = c->at;
    return crafty_replay(
        f[0], f[1], f[2], f[3], f[4], f[5], f[6], f[7], f[8], f[9], f[10], f[11], f[12], f[13], f[14],
        strict, list, length, out, numbers);
}

static crafty_answer replay(const uint8_t *list, size_t length, uint32_t *out, size_t numbers)
{
    return replay_in(&craft, false, list, length, out, numbers);
}

/* Of no action. */
static crafty_answer replay_start(const struct context *c)
{
    uint32_t out[CRAFTY_NUMBERS];
    return replay_in(c, false, NULL, 0, out, CRAFTY_NUMBERS);
}

static void check_replays(void)
{
    static const uint8_t list[] = { 5, 0, 0 };
    static const uint8_t unknown[] = { 5, 31 };
    static const uint8_t again[] = { 5, 5 };
    static const uint32_t finished[CRAFTY_NUMBERS] = { CRAFTY_FINISHED, 0x3F000000, 3, 0, 4, 300, 0, 20, 82, 0, 0, 0, 0, 0, 0, 0, 0, 0, 2, 0, 0 };
    struct context outside = craft;
    outside.at[CRAFTY_AT_STEP_MAX] = 256;
    uint32_t out[CRAFTY_NUMBERS + 1];
    uint32_t before[CRAFTY_NUMBERS + 1];
    memset(out, UNTOUCHED, sizeof out);
    memcpy(before, out, sizeof out);

    crafty_answer answer = replay_in(&outside, false, unknown, 2, out, CRAFTY_NUMBERS);
    expect(answer.number == CRAFTY_OUTSIDE_LIMITS && answer.value == 4, "refusal 1 of a number that does not fit");
    answer = replay(unknown, 2, out, CRAFTY_NUMBERS);
    expect(answer.number == CRAFTY_UNKNOWN_ACTION && answer.value == 1, "refusal 3 of a replay");
    answer = replay(list, 3, out, CRAFTY_NUMBERS - 1);
    expect(answer.number == CRAFTY_NO_ROOM && answer.value == CRAFTY_NUMBERS, "refusal 6 of a replay");
    expect(memcmp(out, before, sizeof out) == 0, "a refusal leaves the numbers as they were");
    answer = replay(list, 3, out, CRAFTY_NUMBERS + 1);
    expect(answer.number == CRAFTY_SUCCESS && answer.value == CRAFTY_NUMBERS, "a list is replayed");
    expect(memcmp(out, finished, sizeof finished) == 0, "the numbers of a replay");
    expect(out[CRAFTY_NUMBERS] == before[CRAFTY_NUMBERS], "no number further");

    /* a second Veneration under the first is legal in plain mode alone */
    replay(again, 2, out, CRAFTY_NUMBERS);
    expect(out[0] == CRAFTY_CONTINUING && out[2] == 2, "a plain replay");
    replay_in(&craft, true, again, 2, out, CRAFTY_NUMBERS);
    expect(out[0] == CRAFTY_INVALID_ACTION_FAILURE && out[2] == 1, "a strict replay");
}

/* ---- trees. Records 1 and 2 are below record 0, record 3 is below 1, and record 4 is not used. */

enum { COUNT = 4, RECORDS = 5 };

static crafty_node nodes[RECORDS];
static crafty_node before[RECORDS];
static size_t numbers[RECORDS];

static void grow(void)
{
    nodes[0] = (crafty_node){ 0, 31, 5, 2.5f, 0.75f, ALL_MOVES };
    nodes[1] = (crafty_node){ 0, 0, 3, -1, 0.5f, 1 };
    nodes[2] = (crafty_node){ 0, 30, 0, 0, 0.5f, 2 };
    nodes[3] = (crafty_node){ 1, 7, 0, 0, 0, 3 };
    nodes[4] = (crafty_node){ 9, 99, NAN, -8, -0.0f, NO_SET };
    memcpy(before, nodes, sizeof nodes);
    for (size_t i = 0; i < RECORDS; i++) numbers[i] = UNTOUCHED;
}

/* To the bit, without the bytes between the fields. */
static bool is_same(const crafty_node *a, const crafty_node *b)
{
    return a->parent == b->parent && a->action == b->action && a->unused == b->unused
        && memcmp(&a->visits, &b->visits, sizeof a->visits) == 0
        && memcmp(&a->score_sum, &b->score_sum, sizeof a->score_sum) == 0
        && memcmp(&a->max_score, &b->max_score, sizeof a->max_score) == 0;
}

/* The answer, every record as `before` has it, and both rooms as they were. */
static void expect_records(crafty_answer answer, uint32_t number, size_t value, const char *what)
{
    for (size_t i = 0; i < RECORDS; i++) expect(is_same(&nodes[i], &before[i]) && numbers[i] == UNTOUCHED, what);
    expect_text(answer, number, value, "", what);
    grow();
}

static crafty_answer plant(size_t length, uint32_t unused)
{
    return crafty_tree_new(nodes, length, unused);
}

static crafty_answer insert(size_t length, size_t count, size_t parent, uint8_t action, uint32_t unused)
{
    return crafty_tree_insert(nodes, length, count, parent, action, unused);
}

static crafty_answer propagate(size_t count, size_t start, size_t target, float score)
{
    return crafty_tree_backpropagate(nodes, RECORDS, count, start, target, score);
}

static crafty_answer list_children(size_t room_length, size_t count, size_t node)
{
    return crafty_tree_children(nodes, RECORDS, numbers, room_length, count, node);
}

static crafty_answer solve(size_t room_length, size_t count, size_t node)
{
    crafty_solution solution = crafty_tree_solution(nodes, RECORDS, room, room_length, count);
    expect(solution.node == node, "the last node of a solution");
    return (crafty_answer){ solution.number, solution.value };
}

static void check_layout(void)
{
    expect(offsetof(crafty_node, parent) == 0 && offsetof(crafty_node, action) == 8, "where a record has its place");
    expect(offsetof(crafty_node, visits) == 12 && offsetof(crafty_node, score_sum) == 16, "where a record has its scores");
    expect(offsetof(crafty_node, max_score) == 20 && offsetof(crafty_node, unused) == 24, "where a record has its moves");
    expect(sizeof(crafty_node) == 32, "how long a record is");
}

static void check_growing(void)
{
    before[0] = (crafty_node){ 0, 31, 0, 0, 0, ALL_MOVES };
    expect_records(plant(1, ALL_MOVES), CRAFTY_SUCCESS, 1, "a new tree");
    expect_records(plant(0, ALL_MOVES), CRAFTY_NO_ROOM, 1, "refusal 6 of a new tree");
    expect_records(plant(1, NO_SET), CRAFTY_OUTSIDE_LIMITS, 0, "refusal 1 of a new tree");
    expect_records(plant(0, UINT32_MAX), CRAFTY_OUTSIDE_LIMITS, 0, "refusal 1 of a new tree, before 6");
    before[4] = (crafty_node){ 3, 30, 0, 0, 0, ALL_MOVES };
    expect_records(insert(5, 4, 3, 30, ALL_MOVES), CRAFTY_SUCCESS, 4, "an insertion");
    expect_records(insert(4, 4, 3, 30, 0), CRAFTY_NO_ROOM, 5, "refusal 6 of an insertion counts records");
    expect_records(insert(4, 4, 4, 30, 0), CRAFTY_UNKNOWN_NODE, 0, "refusal 8 of an insertion, before 6");
    expect_records(insert(5, 0, 4, 30, 0), CRAFTY_UNSOUND_TREE, 0, "refusal 7 of an insertion, before 8");
    expect_records(insert(5, 0, 4, 31, 0), CRAFTY_UNKNOWN_ACTION, 0, "refusal 3 of an insertion, before 7");
    expect_records(insert(5, 4, 3, 30, NO_SET), CRAFTY_OUTSIDE_LIMITS, 0, "refusal 1 of an insertion");
    expect_records(insert(5, 0, 4, 31, UINT32_MAX), CRAFTY_OUTSIDE_LIMITS, 0, "refusal 1 of an insertion, before 3");
}

static void check_propagation(void)
{
    before[3] = (crafty_node){ 1, 7, 1, 1, 1, 3 };
    before[1] = (crafty_node){ 0, 0, 4, 0, 1, 1 };
    expect_records(propagate(COUNT, 3, 1, 1), CRAFTY_SUCCESS, 0, "a score from 3 up to 1");
    before[2] = (crafty_node){ 0, 30, 1, -1, 0.5f, 2 };
    expect_records(propagate(COUNT, 2, 2, -1), CRAFTY_SUCCESS, 0, "a score of one record");
    before[3] = (crafty_node){ 1, 7, 1, 0, 0, 3 };
    expect_records(propagate(COUNT, 3, 3, -0.0f), CRAFTY_SUCCESS, 0, "+0 stays where -0 comes");
    before[2] = (crafty_node){ 0, 30, 1, 1e-40f, 0.5f, 2 };
    expect_records(propagate(COUNT, 2, 2, 1e-40f), CRAFTY_SUCCESS, 0, "a subnormal score is kept");

    expect_records(propagate(COUNT, 4, 0, 2), CRAFTY_UNKNOWN_NODE, 0, "refusal 8 of a start");
    expect_records(propagate(COUNT, 3, 4, 2), CRAFTY_UNKNOWN_NODE, 0, "refusal 8 of a target, before 9");
    expect_records(propagate(COUNT, 3, 2, 2), CRAFTY_NOT_ABOVE, 0, "refusal 9 of a record beside the way, before 10");
    expect_records(propagate(COUNT, 1, 3, 0), CRAFTY_NOT_ABOVE, 0, "refusal 9 of a record below");
    expect_records(propagate(COUNT, 3, 0, 0x1.000002p0f), CRAFTY_BAD_SCORE, 0, "refusal 10 of a score above 1");
    expect_records(propagate(COUNT, 3, 0, -0x1.000002p0f), CRAFTY_BAD_SCORE, 0, "refusal 10 of a score below -1");
    expect_records(propagate(COUNT, 3, 0, NAN), CRAFTY_BAD_SCORE, 0, "refusal 10 of a NaN");
}

/* Record 0 with so many visits, and what an answer is to leave of it. */
static void visit_root(float visits, float after)
{
    nodes[0].visits = visits;
    before[0].visits = after;
}

static void check_full_visits(void)
{
    visit_root(16777215, 16777216);
    before[0].score_sum = 2.75f;
    expect_records(propagate(COUNT, 0, 0, 0.25f), CRAFTY_SUCCESS, 0, "the last visit");
    visit_root(16777216, 16777216);
    expect_records(propagate(COUNT, 3, 0, 0.25f), CRAFTY_VISITS_FULL, 0, "refusal 11");
    visit_root(16777216, 16777216);
    expect_records(propagate(COUNT, 3, 0, 2), CRAFTY_BAD_SCORE, 0, "refusal 10 before 11");
    visit_root(16777216, 16777216);
    before[2] = (crafty_node){ 0, 30, 1, 0.25f, 0.5f, 2 };
    expect_records(propagate(COUNT, 2, 2, 0.25f), CRAFTY_SUCCESS, 0, "full visits beside the way");
}

static void check_paths(void)
{
    crafty_answer answer = list_children(RECORDS, COUNT, 0);
    expect(numbers[0] == 1 && numbers[1] == 2, "the children of record 0");
    numbers[0] = numbers[1] = UNTOUCHED;
    expect_records(answer, CRAFTY_SUCCESS, 2, "children");
    expect_records(list_children(0, COUNT, 3), CRAFTY_SUCCESS, 0, "a record without children");
    expect_records(list_children(1, COUNT, 0), CRAFTY_NO_ROOM, 2, "refusal 6 of children");
    expect_records(list_children(1, COUNT, 4), CRAFTY_UNKNOWN_NODE, 0, "refusal 8 of children");

    answer = solve(ROOM, COUNT, 2);
    expect(room[0] == 30, "the last of equals");
    room[0] = UNTOUCHED;
    expect_records(answer, CRAFTY_SUCCESS, 1, "a solution");
    nodes[1].max_score = before[1].max_score = 0x1.000002p-1f;
    answer = solve(2, COUNT, 3);
    expect(room[0] == 0 && room[1] == 7, "the greater, and below it");
    room[0] = room[1] = UNTOUCHED;
    expect_records(answer, CRAFTY_SUCCESS, 2, "a solution of two");
    nodes[1].max_score = before[1].max_score = 0x1.000002p-1f;
    expect_records(solve(1, COUNT, 0), CRAFTY_NO_ROOM, 2, "refusal 6 of a solution");
    expect_records(solve(0, 1, 0), CRAFTY_SUCCESS, 0, "a solution of record 0 alone");
}

struct placed {
    size_t at;
    crafty_node record;
    const char *what;
};

static const struct placed unsound[] = {
    { 0, { 1, 31, 0, 0, 0, 0 }, "refusal 7 of a root with a parent" },
    { 0, { 0, 30, 0, 0, 0, 0 }, "refusal 7 of a root with an action" },
    { 2, { 2, 0, 0, 0, 0, 0 }, "refusal 7 of a record that is its own parent" },
    { 2, { 0, 31, 0, 0, 0, 0 }, "refusal 7 of a record with action 31" },
    { 2, { 0, 0, NAN, 0, 0, 0 }, "refusal 7 of visits that are a NaN" },
    { 2, { 0, 0, -0x1p-149f, 0, 0, 0 }, "refusal 7 of visits below 0" },
    { 2, { 0, 0, 0x1p-149f, 0, 0, 0 }, "refusal 7 of visits that are not whole" },
    { 2, { 0, 0, 16777218, 0, 0, 0 }, "refusal 7 of too many visits" },
    { 2, { 0, 0, 2, NAN, 0, 0 }, "refusal 7 of a sum that is a NaN" },
    { 2, { 0, 0, 2, 0x1.000002p1f, 0, 0 }, "refusal 7 of a sum above the visits" },
    { 2, { 0, 0, 2, -0x1.000002p1f, 0, 0 }, "refusal 7 of a sum as far below 0" },
    { 2, { 0, 0, 2, 0, NAN, 0 }, "refusal 7 of a maximum that is a NaN" },
    { 2, { 0, 0, 2, 0, -0.0f, 0 }, "refusal 7 of a maximum of minus zero" },
    { 2, { 0, 0, 2, 0, -0x1p-149f, 0 }, "refusal 7 of a maximum below 0" },
    { 2, { 0, 0, 2, 0, 0x1.000002p0f, 0 }, "refusal 7 of a maximum above 1" },
    { 2, { 0, 0, 2, 0, 0, NO_SET }, "refusal 7 of unused moves with bit 31" },
};

static const struct placed sound[] = {
    { 0, { 0, 31, 0, 0, 0, 0 }, "a root that was never visited" },
    { 2, { 1, 30, 16777216, 16777216, 1, ALL_MOVES }, "a record with the most of all" },
    { 2, { 0, 0, 16777216, -16777216, 0, 0 }, "a record with the least sum" },
    { 2, { 0, 0, 1, 0, 0x1p-149f, 0 }, "a record with the least maximum above 0" },
    { 2, { 0, 0, -0.0f, -0.0f, 0, 0 }, "a record with visits of minus zero" },
};

static void place(const struct placed *p)
{
    nodes[p->at] = before[p->at] = p->record;
}

/* Of a count too. */
static void expect_unsound(size_t count, const struct placed *p)
{
    place(p);
    expect_records(insert(RECORDS, count, 0, 0, 0), CRAFTY_UNSOUND_TREE, 0, p->what);
    place(p);
    expect_records(propagate(count, 0, 0, 0), CRAFTY_UNSOUND_TREE, 0, p->what);
    place(p);
    expect_records(list_children(RECORDS, count, 0), CRAFTY_UNSOUND_TREE, 0, p->what);
    place(p);
    expect_records(solve(ROOM, count, 0), CRAFTY_UNSOUND_TREE, 0, p->what);
}

static void check_soundness(void)
{
    static const struct placed none = { 2, { 0, 0, 0, 0, 0, 0 }, "refusal 7 of a count of 0" };
    static const struct placed all = { 4, { 0, 0, 0, 0, 0, 0 }, "refusal 7 of a count above the records" };
    expect_unsound(0, &none);
    expect_unsound(RECORDS + 1, &all);
    place(&all);
    expect_records(list_children(0, RECORDS, 4), CRAFTY_SUCCESS, 0, "a count of all records");
    for (size_t i = 0; i < sizeof unsound / sizeof *unsound; i++) expect_unsound(COUNT, &unsound[i]);
    for (size_t i = 0; i < sizeof sound / sizeof *sound; i++) {
        place(&sound[i]);
        expect_records(list_children(0, COUNT, 3), CRAFTY_SUCCESS, 0, sound[i].what);
    }
}

static void check_trees(void)
{
    check_layout();
    grow();
    check_growing();
    check_propagation();
    check_full_visits();
    check_paths();
    check_soundness();
}

/* ---- the search, of a craft with the moves 0 and 5. Each draw is 0 and so picks the highest, and all logarithms are 0. The
 * first iteration stores 5 0 0, the second 0 5 0, and the third 0 below the second's first record. */

enum { ITERATIONS = 3, GROWN = 8, SPARE = 9, DRAWN = 7, PATH = 2, LOGS = 4096 };

/* What a search is asked, but for what is lent to be written. */
struct asked {
    struct context context;
    uint32_t iterations;
    float threshold, weighting, exploration;
    size_t logs, draws, records, room;
};

static const struct asked usual = { CRAFT, ITERATIONS, 0, 0.1f, 1.5f, LOGS, DRAWN, GROWN, PATH };

static float logs[LOGS + 1];
static uint8_t draws[DRAWN];
static crafty_node tree[SPARE];

/* With what no tree holds. */
static void clear_tree(void)
{
    for (size_t i = 0; i < SPARE; i++) tree[i] = (crafty_node){ 9, 99, NAN, -8, -0.0f, NO_SET };
}

static crafty_found search(struct asked a)
{
    const uint64_t *f = a.context.at;
    return crafty_search(
        tree, a.records, logs, a.logs, draws, a.draws, room, a.room,
        f[0], f[1], f[2], f[3], f[4], f[5], f[6], f[7], f[8], f[9], f[10], f[11], f[12], f[13], f[14],
        a.iterations, a.threshold, a.weighting, a.exploration);
}

/* The tree after so many iterations, and behind it each record as it was. */
static void expect_tree(uint32_t iterations, size_t count, const char *what)
{
    static const crafty_node grown[ITERATIONS + 1][SPARE] = {
        { { 0, 31, 0, 0, 0, 33 } },
        { { 0, 31, 1, 0.5f, 0.5f, 1 }, { 0, 5, 1, 0.5f, 0.5f, 0 }, { 1, 0, 1, 0.5f, 0.5f, 0 }, { 2, 0, 1, 0.5f, 0.5f, 0 } },
        { { 0, 31, 2, 1, 0.5f, 0 }, { 0, 5, 1, 0.5f, 0.5f, 0 }, { 1, 0, 1, 0.5f, 0.5f, 0 }, { 2, 0, 1, 0.5f, 0.5f, 0 },
          { 0, 0, 1, 0.5f, 0.5f, 1 }, { 4, 5, 1, 0.5f, 0.5f, 0 }, { 5, 0, 1, 0.5f, 0.5f, 0 } },
        { { 0, 31, 3, 1.625f, 0.625f, 0 }, { 0, 5, 1, 0.5f, 0.5f, 0 }, { 1, 0, 1, 0.5f, 0.5f, 0 }, { 2, 0, 1, 0.5f, 0.5f, 0 },
          { 0, 0, 2, 1.125f, 0.625f, 0 }, { 4, 5, 1, 0.5f, 0.5f, 0 }, { 5, 0, 1, 0.5f, 0.5f, 0 }, { 4, 0, 1, 0.625f, 0.625f, 0 } },
    };
    static const crafty_node untouched = { 9, 99, NAN, -8, -0.0f, NO_SET };
    for (size_t i = 0; i < SPARE; i++) expect(is_same(&tree[i], i < count ? &grown[iterations][i] : &untouched), what);
    clear_tree();
}

/* The craft's start, which comes back with a refusal. */
static const crafty_state start = { 1, 0, 0, 40, 100, 0, 0, 0, 0, 0, 0, 0, 0, 0, 0, 0, 31 };

static void expect_found(crafty_found said, const crafty_found *wanted, const char *what)
{
    expect(said.number == wanted->number && said.value == wanted->value, what);
    expect(said.iterations == wanted->iterations && said.records == wanted->records && said.draws == wanted->draws, what);
    expect(said.path == wanted->path && said.node == wanted->node, what);
    expect(memcmp(&said.state, &wanted->state, sizeof said.state) == 0, what);
}

/* After so many iterations, which stand. */
static void expect_stopped(struct asked a, uint32_t number, size_t value, uint32_t iterations, const char *what)
{
    static const size_t records[] = { 1, 4, 7, 8 }, drawn[] = { 0, 3, 6, 7 };
    crafty_found wanted = { number, iterations, value, records[iterations], drawn[iterations], 0, 0, start };
    expect_found(search(a), &wanted, what);
    expect_text((crafty_answer){ 0, 0 }, 0, 0, "", what);
    expect_tree(iterations, records[iterations], what);
}

/* Before any work. */
static void expect_refused(struct asked a, uint32_t number, size_t value, const char *what)
{
    crafty_found wanted = { number, 0, value, 0, 0, 0, 0, start };
    if (number == CRAFTY_OUTSIDE_LIMITS) memset(&wanted.state, 0, sizeof wanted.state);
    expect_found(search(a), &wanted, what);
    expect_text((crafty_answer){ 0, 0 }, 0, 0, "", what);
    expect_tree(0, 0, what);
}

static void expect_whole(struct asked a, const char *what)
{
    static const crafty_found wanted = {
        CRAFTY_SUCCESS, ITERATIONS, 0, GROWN, DRAWN, PATH, 7, { 3, 200, 0, 20, 100, 0, 0, 0, 0, 0, 0, 0, 0, 0, 0, 0, 0 },
    };
    expect_found(search(a), &wanted, what);
    expect(room[0] == 0 && room[1] == 0, what);
    room[0] = room[1] = UNTOUCHED;
    expect_text((crafty_answer){ 0, 0 }, 0, 0, "", what);
    expect_tree(ITERATIONS, GROWN, what);
}

static struct asked with_logs(size_t length) { struct asked a = usual; a.logs = length; return a; }
static struct asked with_draws(size_t length) { struct asked a = usual; a.draws = length; return a; }
static struct asked with_records(size_t length) { struct asked a = usual; a.records = length; return a; }
static struct asked with_room(size_t length) { struct asked a = usual; a.room = length; return a; }
static struct asked with_steps(uint32_t step_max) { struct asked a = usual; a.context.at[CRAFTY_AT_STEP_MAX] = step_max; return a; }
static struct asked with_iterations(uint32_t iterations) { struct asked a = usual; a.iterations = iterations; return a; }
static struct asked with_threshold(float threshold) { struct asked a = usual; a.threshold = threshold; return a; }
static struct asked with_weighting(float weighting) { struct asked a = usual; a.weighting = weighting; return a; }
static struct asked with_exploration(float exploration) { struct asked a = usual; a.exploration = exploration; return a; }

static void check_iterations(void)
{
    expect(offsetof(crafty_found, value) == 8 && offsetof(crafty_found, state) == 48, "where an answer has its state");
    expect(sizeof(crafty_state) == 68 && sizeof(crafty_found) == 120, "how long an answer is");
    expect_whole(usual, "a search");
    expect_whole(with_records(SPARE), "a search with a record to spare");
    expect_whole(with_room(ROOM), "a search with room to spare");

    expect_stopped(with_draws(6), CRAFTY_NO_DRAW, 0, 2, "refusal 19 of the last draw");
    expect_stopped(with_draws(5), CRAFTY_NO_DRAW, 0, 1, "refusal 19 within an iteration");
    expect_stopped(with_draws(0), CRAFTY_NO_DRAW, 0, 0, "refusal 19 of the first draw");
    draws[6] = 1;
    expect_stopped(usual, CRAFTY_DRAW_TOO_HIGH, 0, 2, "refusal 20 of the last draw");
    expect_stopped(with_draws(6), CRAFTY_NO_DRAW, 0, 2, "refusal 19 before a draw too high");
    expect_stopped(with_records(7), CRAFTY_DRAW_TOO_HIGH, 0, 2, "refusal 20 before 6");
    draws[6] = 0;
    draws[4] = 2;
    expect_stopped(usual, CRAFTY_DRAW_TOO_HIGH, 0, 1, "refusal 20 of a rollout");
    expect_stopped(with_draws(5), CRAFTY_DRAW_TOO_HIGH, 0, 1, "refusal 20 before draws that lack");
    draws[4] = 0;
    expect_stopped(with_records(7), CRAFTY_NO_ROOM, 8, 2, "refusal 6 of one record");
    expect_stopped(with_records(6), CRAFTY_NO_ROOM, 7, 1, "refusal 6 of a path of records");
    expect_stopped(with_records(1), CRAFTY_NO_ROOM, 4, 0, "refusal 6 of the first iteration");
    expect_stopped(with_room(1), CRAFTY_NO_ROOM, 2, 3, "refusal 6 of the path");
}

/* Of no iteration, which needs no draw. */
static crafty_answer search_start(const struct context *c)
{
    struct asked a = with_iterations(0);
    a.context = *c;
    crafty_found said = search(a);
    clear_tree();
    return (crafty_answer){ said.number, said.value };
}

static void check_options(void)
{
    static const crafty_found none = { CRAFTY_SUCCESS, 0, 0, 1, 0, 0, 0, { 1, 0, 0, 40, 100, 0, 0, 0, 0, 0, 0, 0, 0, 0, 0, 0, 31 } };
    expect_found(search(with_iterations(0)), &none, "a search of no iteration");
    expect_tree(0, 1, "the tree of no iteration");
    expect_refused(with_records(0), CRAFTY_NO_ROOM, 1, "refusal 6 of record 0");
    expect_refused(with_steps(256), CRAFTY_OUTSIDE_LIMITS, 4, "refusal 1 of a search");
    expect_places(search_start, CRAFTY_AT_BASE_PROGRESS_FACTOR);
    expect_refused(with_steps(0), CRAFTY_BAD_SEARCH, 0, "refusal 21 of step_max");
    expect_refused(with_iterations(4097), CRAFTY_BAD_SEARCH, 0, "refusal 21 of iterations");
    expect_refused(with_threshold(NAN), CRAFTY_BAD_SEARCH, 0, "refusal 21 of a threshold");
    expect_refused(with_weighting(0x1.000002p0f), CRAFTY_BAD_SEARCH, 0, "refusal 21 of a weight above 1");
    expect_refused(with_weighting(-0x1p-149f), CRAFTY_BAD_SEARCH, 0, "refusal 21 of a weight below 0");
    expect_refused(with_weighting(NAN), CRAFTY_BAD_SEARCH, 0, "refusal 21 of a weight that is a NaN");
    expect_refused(with_exploration(0x1.000002p4f), CRAFTY_BAD_SEARCH, 0, "refusal 21 of an exploration above 16");
    expect_refused(with_exploration(-0x1p-149f), CRAFTY_BAD_SEARCH, 0, "refusal 21 of an exploration below 0");
    expect_refused(with_exploration(NAN), CRAFTY_BAD_SEARCH, 0, "refusal 21 of an exploration that is a NaN");
    expect_whole(with_threshold(-INFINITY), "a threshold of minus infinity");
    expect_whole(with_weighting(1), "the greatest weight");
    expect_whole(with_weighting(-0.0f), "a weight of minus zero");
    expect_whole(with_exploration(16), "the greatest exploration");
    expect_whole(with_exploration(-0.0f), "an exploration of minus zero");

    struct asked wrong = with_iterations(4097);
    wrong.records = 0;
    expect_refused(wrong, CRAFTY_BAD_SEARCH, 0, "refusal 21 before 6");
    wrong.context.at[CRAFTY_AT_STEP_MAX] = 256;
    expect_refused(wrong, CRAFTY_OUTSIDE_LIMITS, 4, "refusal 1 before 21");
}

static void check_logarithms(void)
{
    static const float wrong[] = { NAN, -0x1p-149f, 0x1.100002p4f, INFINITY };
    static const float right[] = { -0.0f, 0x1p-149f, 17 };
    expect_refused(with_logs(LOGS - 1), CRAFTY_BAD_SEARCH, 0, "refusal 21 of a logarithm that lacks");
    for (size_t i = 0; i < sizeof wrong / sizeof *wrong; i++) {
        logs[LOGS - 1] = wrong[i];
        expect_refused(usual, CRAFTY_BAD_SEARCH, 0, "refusal 21 of the last logarithm");
        logs[LOGS - 1] = 0;
        logs[LOGS] = wrong[i];
        expect_whole(with_logs(LOGS + 1), "a wrong logarithm that is not read");
    }
    for (size_t i = 0; i < sizeof right / sizeof *right; i++) {
        logs[LOGS - 1] = right[i];
        expect_whole(usual, "a logarithm at its edge");
    }
}

static void check_searches(void)
{
    clear_tree();
    check_iterations();
    check_options();
    check_logarithms();
}

int main(void)
{
    fill();
    check_lists();
    check_texts();
    check_replays();
    expect_places(replay_start, CRAFTY_AT_BASE_PROGRESS_FACTOR);
    check_trees();
    check_searches();
    return failed;
}
