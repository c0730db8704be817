/* The crafting-rules engine for hosts in C: the functions of libcrafty_c.a, which `rt lib` in crates/crafty_c proves
 * and builds for x86-64 Linux. It keeps nothing between calls, allocates nothing, and any number of threads may call
 * it. Of C's library it needs memcpy and memset. A call takes up to some 100 KB of stack, crafty_search some 160, as an
 * older kit compiled it.
 *
 * What the host owes: a pointer and a length are a run of that many bytes, numbers or records, aligned as C aligns
 * them, that stays there during the call; what is lent to be written is used by nobody else meanwhile, and overlaps
 * nothing else that is lent. Where the length is 0 nothing is read or written, and the pointer may be null. And it owes
 * the floating-point environment in which a program starts: round to nearest, no flush to zero and no denormals are
 * zero, no exception unmasked. Beyond that every function takes any numbers and any bytes.
 *
 * Every bit that is proved rests on that environment; in another nothing is promised. Under fesetround(FE_UPWARD) a
 * craft that scores 3E94BC6A scores 3E94BC6C; with flush to zero a back-propagated 1e-40 is stored as 0; with an
 * unmasked inexact exception a score ends the process. Code that was linked with -ffast-math may set flush to zero
 * where it is loaded.
 *
 * What the host gets: every function is proved to answer what crates/crafty_c/specs says, for every input. A refusal
 * leaves all that was lent as it was, but for the tree of crafty_search, as said there; a success writes as much as it
 * says, and no byte, number or record further. */
#ifndef CRAFTY_H
#define CRAFTY_H

#include <stdbool.h>
#include <stddef.h>
#include <stdint.h>

#ifdef __cplusplus
extern "C" {
#endif

/* The answer of every function. `number` is 0 for success, or that of a refusal. `value` of a success is said at each
 * function; with CRAFTY_OUTSIDE_LIMITS, CRAFTY_UNKNOWN_ACTION, CRAFTY_UNKNOWN_WORD and CRAFTY_NO_ROOM it is what also
 * comes back, and with every other refusal 0. */
typedef struct crafty_answer {
    uint32_t number;
    size_t value;
} crafty_answer;

/* The refusals that these functions have. The lowest number comes first, except that 13 and then 12 precede all, and 6
 * comes last; the order of crafty_search is said there. */
enum {
    CRAFTY_SUCCESS = 0,
    CRAFTY_OUTSIDE_LIMITS = 1, /* a number of the context is outside its limit or does not fit its field; value: the first
                                * such field's place, as below. Or a set has bit 31; value: 0 */
    CRAFTY_UNKNOWN_ACTION = 3, /* an action's number is above 30; value: the first such place in the list, from 0 */
    CRAFTY_UNKNOWN_WORD = 5,   /* a word is no action's name; value: the byte where the first such word starts */
    CRAFTY_NO_ROOM = 6,        /* what was lent is too short; value: how many bytes, numbers or records are needed */
    CRAFTY_UNSOUND_TREE = 7,   /* the tree is not sound, as said at crafty_node */
    CRAFTY_UNKNOWN_NODE = 8,   /* a node's number is not below the count */
    CRAFTY_NOT_ABOVE = 9,      /* the target is neither the start nor above it */
    CRAFTY_BAD_SCORE = 10,     /* a score is a NaN or outside -1 to 1 */
    CRAFTY_VISITS_FULL = 11,   /* a record on the way has 16,777,216 visits */
    CRAFTY_MALFORMED_LINE = 12, /* the first line is not fifteen numbers, parted by single spaces */
    CRAFTY_TOO_LONG = 13,      /* an input, or a list to write as text or to time, is above 65,536 bytes */
    CRAFTY_NO_DRAW = 19,       /* a draw is wanted, and none is left */
    CRAFTY_DRAW_TOO_HIGH = 20, /* a draw is not below the number of moves that it is to pick from */
    CRAFTY_BAD_SEARCH = 21     /* an option of a search or a logarithm is outside its limits, or step_max is 0 */
};

/* The places of a context's fields, from 0, in the order in which a line and the functions take them: with
 * CRAFTY_OUTSIDE_LIMITS, which box to correct. docs/REFUSALS.md has the limits, and a name for each box. The levels take
 * any uint32_t: only in a line can they be outside. */
enum {
    CRAFTY_AT_PLAYER_JOB_LEVEL,
    CRAFTY_AT_RECIPE_JOB_LEVEL,
    CRAFTY_AT_BASE_PROGRESS_FACTOR,
    CRAFTY_AT_BASE_QUALITY_FACTOR,
    CRAFTY_AT_STEP_MAX,
    CRAFTY_AT_PROGRESS_TARGET,
    CRAFTY_AT_STARTING_QUALITY,
    CRAFTY_AT_QUALITY_TARGET,
    CRAFTY_AT_DURABILITY_MAX,
    CRAFTY_AT_CP_MAX,
    CRAFTY_AT_IS_EXPERT,
    CRAFTY_AT_ACTION_POOL, /* of a context: a set alone has 0 */
    CRAFTY_AT_PLAYER_IS_SPECIALIST,
    CRAFTY_AT_USE_MANIPULATION,
    CRAFTY_AT_USE_DELINEATION,
    CRAFTY_FIELDS          /* how many there are: 15 */
};

/* How a replay ended. */
enum {
    CRAFTY_FINISHED = 0,
    CRAFTY_DURABILITY_FAILURE = 1,
    CRAFTY_MAX_STEPS_FAILURE = 2,
    CRAFTY_INVALID_ACTION_FAILURE = 3, /* no move is left, or an action was not among the moves */
    CRAFTY_CONTINUING = 4              /* the list ended first */
};

/* The places of the numbers that crafty_replay writes. */
enum {
    CRAFTY_RESULT,              /* how the replay ended, as above */
    CRAFTY_SCORE,               /* the bits of the score, a 32-bit float; 0 unless finished. It is below 1, and at least -1
                                 * where step_max is above 0; where that is 0 it is minus infinity */
    CRAFTY_EXECUTED,            /* how many actions were executed: the longest leading part that is legal */
    CRAFTY_MOVES,               /* the moves of the state, bit n for action n */
    CRAFTY_STEP,                /* the state where the replay stopped, from here on */
    CRAFTY_PROGRESS,
    CRAFTY_QUALITY,
    CRAFTY_DURABILITY,          /* may be negative: two's complement */
    CRAFTY_CP,
    CRAFTY_COMBO,               /* 0 none, 1 BasicTouch, 2 StandardTouch, 3 RefinedTouch, 4 Observe */
    CRAFTY_QUICK_INNOVATION,    /* 1 while it is available */
    CRAFTY_TRAINED_PERFECTION,  /* 0 never used, 1 active, 2 spent */
    CRAFTY_INNER_QUIET,
    CRAFTY_WASTE_NOT,
    CRAFTY_WASTE_NOT_II,
    CRAFTY_MANIPULATION,
    CRAFTY_GREAT_STRIDES,
    CRAFTY_INNOVATION,
    CRAFTY_VENERATION,
    CRAFTY_MUSCLE_MEMORY,
    CRAFTY_LAST_ACTION,         /* 31 for none */
    CRAFTY_NUMBERS              /* how many there are: 21 */
};

/* Replays a list of actions, one byte to an action, from the start of a craft, in plain or in strict mode. The context
 * is its fifteen fields; the four flags are 0 or 1. Writes CRAFTY_NUMBERS numbers. Value: CRAFTY_NUMBERS.
 * Refused by 1 (the place of the first field outside), 3 (also past where the replay would stop), 6. */
crafty_answer crafty_replay(
    uint32_t player_job_level,
    uint32_t recipe_job_level,
    uint32_t base_progress_factor,
    uint32_t base_quality_factor,
    uint32_t step_max,
    uint32_t progress_target,
    uint32_t starting_quality,
    uint32_t quality_target,
    uint32_t durability_max,
    uint32_t cp_max,
    uint32_t is_expert,
    uint32_t action_pool,
    uint32_t player_is_specialist,
    uint32_t use_manipulation,
    uint32_t use_delineation,
    bool strict,
    const uint8_t *list, size_t list_length,
    uint32_t *out, size_t out_length);

/* Replays the input of the program `replay`: a line of the fifteen fields, 1 to 10 digits each, and then a list as
 * text; in plain mode. Writes the state's line at the start and after each executed action, and the line of the
 * result. Value: the bytes written. Refused by 13, 12, 1 (the place of the first field outside), 5 (the offset counts
 * from the start of the input), 6. */
crafty_answer crafty_replay_text(const uint8_t *input, size_t input_length, uint8_t *out, size_t out_length);

/* Writes what the program `replay` prints for an input: the same text, or `refused N` and a line feed, without the value
 * of a refusal. Value: the bytes written. Refused by 6. */
crafty_answer crafty_print(const uint8_t *input, size_t input_length, uint8_t *out, size_t out_length);

/* Writes the actions that a text names, one byte to an action: words parted by bytes 9, 10, 13 and 32. Value: how many.
 * Refused by 5, 6. */
crafty_answer crafty_read_list(const uint8_t *text, size_t text_length, uint8_t *out, size_t out_length);

/* Writes a list as text: each action's name and a line feed. Value: the bytes written. Refused by 13, 3, 6. */
crafty_answer crafty_write_list(const uint8_t *list, size_t list_length, uint8_t *out, size_t out_length);

/* A list's macro time. Value: the sum of the waits of all its actions but the last, in seconds, since the craft is over
 * when that is used; 0 for an empty list and a list of one. Refused by 13, 3, for the last action too. */
crafty_answer crafty_macro_time(const uint8_t *list, size_t list_length);

/* A record of the search's tree. The first `count` records of a lent run are the tree; the others may hold anything.
 * A tree is sound if the count is at least 1 and at most the records lent, and if each record below it is sound:
 *   parent, action   in record 0 the parent is 0 and the action 31; in every other the parent is below the record's own
 *                    number and the action at most 30
 *   visits           a whole number from 0 to 16,777,216
 *   score_sum        from -visits to visits
 *   max_score        from +0 to 1, and not minus zero
 *   unused           the moves not drawn from the record yet, bit n for action n: bit 31 is clear, and no more is asked.
 *                    They are the caller's to keep: the functions on trees write those of a new record alone, and
 *                    crafty_search, which draws, those of its tree
 * None of the three floats is a NaN. What takes a sound tree leaves a sound one. */
typedef struct crafty_node {
    size_t parent;
    uint8_t action;
    float visits;
    float score_sum;
    float max_score;
    uint32_t unused;
} crafty_node;

/* The answer of crafty_tree_solution: as crafty_answer, and of a success the last node; of a refusal `node` is 0. */
typedef struct crafty_solution {
    uint32_t number;
    size_t value;
    size_t node;
} crafty_solution;

/* A new tree: writes record 0, with no visit and these unused moves. Value: the count, 1. Refused by 1 (the unused
 * moves; value 0), 6 (1 record is needed). */
crafty_answer crafty_tree_new(crafty_node *nodes, size_t nodes_length, uint32_t unused);

/* Writes a new record, number `count`, with no visit and these unused moves, below a parent, whose record stays as it
 * is. Value: its number; the count is then one more. Refused by 1 (the unused moves; value 0), 3 (value 0), 7, 8
 * (the parent), 6 (count + 1 records are needed). */
crafty_answer crafty_tree_insert(
    crafty_node *nodes, size_t nodes_length, size_t count, size_t parent, uint8_t action, uint32_t unused);

/* Each record from `start` up to `target` gets one visit more, the score, which is from -1 to 1, in its sum, and the
 * greater maximum. Value: 0. Refused by 7, 8 (start or target), 9, 10, 11. */
crafty_answer crafty_tree_backpropagate(
    crafty_node *nodes, size_t nodes_length, size_t count, size_t start, size_t target, float score);

/* Writes the numbers of a record's children, in record order. Value: how many. Refused by 7, 8, 6. */
crafty_answer crafty_tree_children(
    const crafty_node *nodes, size_t nodes_length, size_t *out, size_t out_length, size_t count, size_t node);

/* From record 0 the child of greatest max_score, the last of equals, and so on until there is none: writes their
 * actions. Value: how many. Refused by 7, 6. */
crafty_solution crafty_tree_solution(
    const crafty_node *nodes, size_t nodes_length, uint8_t *out, size_t out_length, size_t count);

/* A state, by the numbers that crafty_replay writes from CRAFTY_STEP to CRAFTY_LAST_ACTION. */
typedef struct crafty_state {
    uint32_t step;
    uint32_t progress;
    uint32_t quality;
    uint32_t durability;
    uint32_t cp;
    uint32_t combo;
    uint32_t quick_innovation;
    uint32_t trained_perfection;
    uint32_t inner_quiet;
    uint32_t waste_not;
    uint32_t waste_not_ii;
    uint32_t manipulation;
    uint32_t great_strides;
    uint32_t innovation;
    uint32_t veneration;
    uint32_t muscle_memory;
    uint32_t last_action;
} crafty_state;

/* The answer of crafty_search. */
typedef struct crafty_found {
    uint32_t number;     /* 0 for success, or that of a refusal */
    uint32_t iterations; /* how many were done */
    size_t value;        /* with CRAFTY_NO_ROOM what is needed, with CRAFTY_OUTSIDE_LIMITS the place, and else 0 */
    size_t records;      /* how many the tree has after them: its count */
    size_t draws;        /* how many they used, from the first on */
    size_t path;         /* how many actions were written; of a refusal 0 */
    size_t node;         /* the last node; of a refusal 0 */
    crafty_state state;  /* the state there; of a refusal the craft's start, and with CRAFTY_OUTSIDE_LIMITS all 0 */
} crafty_found;

/* Searches a craft for a good list, on chance and logarithms that the host lends, so that the same call gives the same
 * answer. It plants a new tree in the records, grows it by so many iterations, and writes the actions of its solution,
 * as crafty_tree_solution does. A plain replay executes them all.
 *   logs         number v - 1 is the logarithm of v visits: 4,096 of them, each from 0 to 17. More are not read
 *   draws        a byte n picks, of the moves that are left, the one with n of them above it: 0 is the highest. It is
 *                below their number. An iteration uses one for each action that it tries, and what is left over is
 *                not read
 *   out          the actions, at most 255
 *   iterations   at most 4,096. Each stores one record or none, or its whole path: one record for each draw
 *   score_storage_threshold        from this score on the path of a finished rollout is stored, if it is also at least
 *                                  record 0's max_score, which starts at 0: 0 keeps each such one, 1 keeps none. Any
 *                                  number, but no NaN
 *   max_score_weighting_constant   what a record's greatest score counts beside its average, from 0 to 1; usually 0.1
 *   exploration_constant           from 0 to 16; usually 1.5
 * step_max is at least 1. Minus zero counts as 0.
 * Refused by 1 (the place of the first field outside), 21 and 6 (1 record is needed), which write nothing. Then an
 * iteration is refused by 19, 20, and 6 where the records don't suffice for all that it stores (the count that would do
 * is needed): it stores nothing and its draws are not used, but those before it stand. Last by 6 where the path has no
 * room (its length is needed): all iterations stand. A refusal writes no path. */
crafty_found crafty_search(
    crafty_node *nodes, size_t nodes_length,
    const float *logs, size_t logs_length,
    const uint8_t *draws, size_t draws_length,
    uint8_t *out, size_t out_length,
    uint32_t player_job_level,
    uint32_t recipe_job_level,
    uint32_t base_progress_factor,
    uint32_t base_quality_factor,
    uint32_t step_max,
    uint32_t progress_target,
    uint32_t starting_quality,
    uint32_t quality_target,
    uint32_t durability_max,
    uint32_t cp_max,
    uint32_t is_expert,
    uint32_t action_pool,
    uint32_t player_is_specialist,
    uint32_t use_manipulation,
    uint32_t use_delineation,
    uint32_t iterations,
    float score_storage_threshold,
    float max_score_weighting_constant,
    float exploration_constant);

#ifdef __cplusplus
}
#endif

#endif
