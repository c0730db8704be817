/* A call of the archive for another process, as relay.c and compare/ write it and host.c reads it. The input and the
 * room come after it. An answer is two numbers of eight bytes, and the room. */
#include "../include/crafty.h"

enum function {
    REPLAY, REPLAY_TEXT, PRINT, READ_LIST, WRITE_LIST, MACRO_TIME,
    TREE_NEW, TREE_INSERT, TREE_CHILDREN, TREE_BACKPROPAGATE, TREE_SOLUTION,
    SEARCH
};

/* Of a tree the input is its records, which may be written: they come back before the room, after a third number, the
 * last node. Its other numbers stand at these places of the context; NODE is also a parent or a start, SCORE is bits. */
enum { COUNT, NODE, TARGET, ACTION, SCORE, UNUSED };

/* Only REPLAY has a mode, and it, the trees and the search a context. The lengths are in bytes. */
struct call {
    uint64_t function, strict, context[CRAFTY_FIELDS], input, room;
};

/* Of a search, what comes directly after the call: its options, floats by their bits, and the lengths of the logarithms
 * and the draws. These two stand between its input, the records, and the room. Its answer is a crafty_found, the records
 * and the room. */
struct search {
    uint64_t iterations, threshold, weighting, exploration, logs, draws;
};
