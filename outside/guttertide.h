/* Guttertide for C and C++: a concurrent map from keys of 64 bits to values of 128 bits.
 *
 * A dictionary is of one of six structures (GUTTERTIDE_BLINK_TREE and the next five), over a fixed number of nodes, and a
 * fixed number of handles call it at once. All names begin with guttertide_ or GUTTERTIDE_. docs/USING.md has a whole program
 * with threads, and how it is linked.
 *
 *     guttertide_handle handles[2] = {GUTTERTIDE_NO_HANDLE, GUTTERTIDE_NO_HANDLE};
 *     guttertide_options options = guttertide_options_for(GUTTERTIDE_BLINK_TREE, 1000, 2);
 *     guttertide_answer answer;
 *     if (guttertide_open(&options, handles, 2) != GUTTERTIDE_NOTHING) return 1;
 *     guttertide_put(&handles[0], 5, guttertide_value_of(50), &answer);
 *     guttertide_close(&handles[0]);
 *     guttertide_close(&handles[1]);
 *
 * Waiting. A call that another caller is in the way of is put off: it is not in the history and leaves the map as it was;
 * nodes that it split stay split. guttertide_get to guttertide_count then make it again, and wait between as guttertide_pause
 * says, with no bound in time. Those with try_ in their names make it once, and return why it was put off (GUTTERTIDE_BUSY,
 * GUTTERTIDE_MOVED or GUTTERTIDE_FAR, which guttertide_is_later tests): take them in an event loop. Only guttertide_open takes
 * memory, and only guttertide_close returns it.
 *
 * Order. Proved: all calls of all handles of a dictionary form one history of one map, in which each call has its number, and
 * those of one handle have ascending numbers. Tested, and not proved: a call has a greater number than each call of another
 * handle that returned before it began. What is declared here and not in the library (all but the guttertide_c_ functions) is
 * tested, and not proved.
 *
 * Misuse. If a pointer is null, a handle is not open (or already open, for guttertide_open) or a number is out of its range,
 * the functions return a code and do nothing. What they cannot test the program ensures, and if it does not the behavior is
 * undefined:
 *
 *   - A handle begins as GUTTERTIDE_NO_HANDLE (all bytes 0), and only these functions write it. It is aligned, and not copied:
 *     once one copy is closed, the other points to freed memory. It may be moved while no call uses it, if the old place is
 *     not used again.
 *   - One handle is in one call at a time. It may go from thread to thread if that is ordered (by a lock, a thread's start
 *     or join, or a sequentially consistent atomic). Different handles may be in calls at the same time.
 *   - An answer, a part and the pairs of a scan do not overlap a handle or each other, and no other thread uses them during
 *     the call. There are as many handles as `count` says, and as many pairs as `room` says.
 *   - malloc, realloc and free are of one allocator, as C has them. No call is made from a signal handler, nor in a child that
 *     was forked while there were several threads.
 *
 * A thread that ends in a call (cancelled asynchronously, or by longjmp from a signal handler) keeps the nodes that it holds:
 * other calls that need one return GUTTERTIDE_BUSY, or wait, for ever. Its handle is lost, and so is the memory.
 */
#ifndef GUTTERTIDE_H
#define GUTTERTIDE_H

#include <sched.h>
#include <stddef.h>
#include <stdint.h>
#include <sys/select.h>

#ifdef __cplusplus
extern "C" {
#endif

/* The version of this header, 0.2.0; guttertide_version() is that of the library. guttertide_open compares the first two of
 * the three numbers. */
#define GUTTERTIDE_VERSION 0x000200u

/* A handle: one caller of a dictionary. */
typedef struct guttertide_handle {
    void *at;
} guttertide_handle;

#define GUTTERTIDE_NO_HANDLE {0}

/* A value of 128 bits: high * 2^64 + low. */
typedef struct guttertide_value {
    uint64_t low, high;
} guttertide_value;

/* What a call returns beside its code, in the fields that the code names. The others may be unset. */
typedef struct guttertide_answer {
    uint64_t number;        /* of the call in the one history of all calls, from 0; with NOTHING, VALUE, FULL, MORE */
    guttertide_value value; /* that the key had before the call; with VALUE */
    uint32_t node;          /* that another caller held, or changed; with BUSY, MOVED */
    uint32_t holder;        /* the caller that held the node: the index of its handle at guttertide_open; with BUSY */
} guttertide_answer;

/* A key and its value, as a scan lists them. */
typedef struct guttertide_pair {
    uint64_t key;
    guttertide_value value;
} guttertide_pair;

/* What a part of a scan returns beside its code and its pairs. */
typedef struct guttertide_part {
    guttertide_answer answer; /* as of other calls, without a value */
    uint64_t next;            /* the key at which the next part begins; with MORE */
    size_t count;             /* how many pairs are listed; with NOTHING, MORE */
} guttertide_part;

/* How many pairs a part of a scan may have. */
#define GUTTERTIDE_PART 16

/* What a dictionary is to be. */
typedef struct guttertide_options {
    uint32_t structure; /* one of those below */
    uint32_t nodes;     /* 4 to 1048576, of some 660 bytes each */
} guttertide_options;

/* The codes. With NOTHING, VALUE, FULL and MORE a call is in the history; with all others the map is as before. */
enum {
    GUTTERTIDE_NOTHING = 0,       /* the key had no value; the part ends at the scan's last key; of open and close: done */
    GUTTERTIDE_VALUE = 1,         /* the key had a value */
    GUTTERTIDE_FULL = 2,          /* a put or an add had no room for its key, and too few nodes were found free */
    GUTTERTIDE_BUSY = 3,          /* another caller held a node that the search came to: make the call again */
    GUTTERTIDE_MOVED = 4,         /* no search could later reach a node of its path, which another caller changed: again */
    GUTTERTIDE_FAR = 5,           /* as many nodes were taken as there are, while another caller changed some: again */
    GUTTERTIDE_MORE = 6,          /* the part ends below the scan's last key */
    GUTTERTIDE_CLOSED = 16,       /* the handle is not open */
    GUTTERTIDE_BAD_SIZE = 17,     /* not 4 to 1048576 nodes, or not 1 to 1024 handles */
    GUTTERTIDE_NO_MEMORY = 18,    /* memory ran out */
    GUTTERTIDE_IN_USE = 19,       /* a handle that is to be opened is open */
    GUTTERTIDE_NULL = 20,         /* a pointer is null */
    GUTTERTIDE_NO_STRUCTURE = 21, /* no structure has this word */
    GUTTERTIDE_BAD_SPAN = 22,     /* the first key of a scan is above its last */
    GUTTERTIDE_NO_ROOM = 23,      /* there is room for fewer than GUTTERTIDE_PART pairs */
    GUTTERTIDE_UNFIT = 24,        /* the structure has no scans */
    GUTTERTIDE_OTHER_VERSION = 27 /* the library is of another version than this header */
};

/* The structures, and which codes put off a call. A del merges nodes until it needs one that another caller holds. */
enum {
    GUTTERTIDE_BLINK_TREE = 0,      /* B-link tree: a search goes on to the right, nodes are never merged; scans; BUSY */
    GUTTERTIDE_GIVE_UP_TREE = 1,    /* B+ tree by giving up: searches may restart, nodes are merged; scans; BUSY, MOVED, FAR */
    GUTTERTIDE_B_TREE = 2,          /* B+ tree by lock coupling: searches hold up to two nodes, nodes are merged; BUSY, FAR */
    GUTTERTIDE_LINK_HASH_TABLE = 3, /* hash table along links, of wide nodes: nodes are never merged; BUSY */
    GUTTERTIDE_BLINK_WIDE_TREE = 4, /* as GUTTERTIDE_BLINK_TREE, with 64 children of a node: for many keys */
    GUTTERTIDE_GIVE_UP_WIDE_TREE = 5 /* as GUTTERTIDE_GIVE_UP_TREE, with 64 children of a node: for many keys */
};

/* The functions of the library, which test no pointer: call those without c_ in their names. */
uint32_t guttertide_c_version(void);
uint32_t guttertide_c_open(uint32_t structure, uint32_t nodes, guttertide_handle *handles, size_t count);
uint32_t guttertide_c_get(guttertide_handle *handle, uint64_t key, guttertide_answer *answer);
uint32_t guttertide_c_put(guttertide_handle *handle, uint64_t key, uint64_t low, uint64_t high, guttertide_answer *answer);
uint32_t guttertide_c_add(guttertide_handle *handle, uint64_t key, uint64_t low, uint64_t high, guttertide_answer *answer);
uint32_t guttertide_c_swap(guttertide_handle *handle, uint64_t key, uint64_t old_low, uint64_t old_high, uint64_t new_low,
                           uint64_t new_high, guttertide_answer *answer);
uint32_t guttertide_c_del(guttertide_handle *handle, uint64_t key, guttertide_answer *answer);
uint32_t guttertide_c_scan(guttertide_handle *handle, uint64_t low, uint64_t last, guttertide_pair *pairs, size_t room,
                           guttertide_part *part);
uint32_t guttertide_c_close(guttertide_handle *handle);

/* The version of the library: 65536 times the first number, 256 times the second one, and the third. */
static inline uint32_t guttertide_version(void) {
    return guttertide_c_version();
}

/* The meaning of a code in words, as "another caller held a node"; never null. */
static inline const char *guttertide_text(uint32_t code) {
    switch (code) {
    case GUTTERTIDE_NOTHING: return "done, and the key had no value";
    case GUTTERTIDE_VALUE: return "done, and the key had a value";
    case GUTTERTIDE_FULL: return "there is no room for the key, and too few nodes are free";
    case GUTTERTIDE_BUSY: return "another caller held a node";
    case GUTTERTIDE_MOVED: return "another caller changed a node of the search path";
    case GUTTERTIDE_FAR: return "as many nodes were taken as there are";
    case GUTTERTIDE_MORE: return "done, and more keys follow";
    case GUTTERTIDE_CLOSED: return "the handle is not open";
    case GUTTERTIDE_BAD_SIZE: return "not 4 to 1048576 nodes, or not 1 to 1024 handles";
    case GUTTERTIDE_NO_MEMORY: return "memory ran out";
    case GUTTERTIDE_IN_USE: return "a handle is open already";
    case GUTTERTIDE_NULL: return "a pointer is null";
    case GUTTERTIDE_NO_STRUCTURE: return "there is no such structure";
    case GUTTERTIDE_BAD_SPAN: return "the first key is above the last";
    case GUTTERTIDE_NO_ROOM: return "there is room for fewer than 16 pairs";
    case GUTTERTIDE_UNFIT: return "the structure has no scans";
    case GUTTERTIDE_OTHER_VERSION: return "the library is of another version";
    default: return "there is no such code";
    }
}

/* The value low, with 0 above it. */
static inline guttertide_value guttertide_value_of(uint64_t low) {
    guttertide_value value;
    value.low = low;
    value.high = 0;
    return value;
}

/* Options of a dictionary with room for this many pairs: an eighth as many leaves, or a sixteenth as many buckets of a hash
 * table; half as many inner nodes, or one for 30 where a node has 64 children; and three nodes for each handle. At most
 * 1048576 nodes. */
static inline guttertide_options guttertide_options_for(uint32_t structure, uint64_t pairs, size_t count) {
    guttertide_options options;
    uint64_t leaves = pairs / (structure == GUTTERTIDE_LINK_HASH_TABLE ? 16 : 8) + 1;
    uint64_t nodes = leaves + leaves / (structure < GUTTERTIDE_LINK_HASH_TABLE ? 2 : 30) + 3 * (uint64_t)count + 3;
    options.structure = structure;
    options.nodes = nodes < 1048576 ? (uint32_t)nodes : 1048576;
    return options;
}

/* Opens an empty dictionary, and a handle for each of its `count` callers. A leaf of a tree has at most 16 pairs, a bucket of a
 * hash table 32. Returns NOTHING, NULL, OTHER_VERSION, NO_STRUCTURE, BAD_SIZE, IN_USE or NO_MEMORY; with all but the first the
 * handles stay as they are. */
static inline uint32_t guttertide_open(const guttertide_options *options, guttertide_handle *handles, size_t count) {
    if (!options || !handles)
        return GUTTERTIDE_NULL;
    if (guttertide_version() >> 8 != GUTTERTIDE_VERSION >> 8)
        return GUTTERTIDE_OTHER_VERSION;
    return guttertide_c_open(options->structure, options->nodes, handles, count);
}

/* Closes a handle. The dictionary's memory is freed with its last one. Returns NOTHING, CLOSED or NULL. */
static inline uint32_t guttertide_close(guttertide_handle *handle) {
    if (!handle)
        return GUTTERTIDE_NULL;
    return guttertide_c_close(handle);
}

/* Whether a call with this code was put off: it may be made again. */
static inline int guttertide_is_later(uint32_t code) {
    return code == GUTTERTIDE_BUSY || code == GUTTERTIDE_MOVED || code == GUTTERTIDE_FAR;
}

/* One short wait of a processor. */
static inline void guttertide_relax(void) {
#if defined(__x86_64__) || defined(__i386__)
    __builtin_ia32_pause();
#endif
}

/* Waits before a call is made again that was put off `failed` times in a row: after the first time it spins, for 127 short
 * waits of the processor; after each of the next 16 it yields the processor; after each later one it sleeps, for 50
 * microseconds and then twice as long each time, up to a millisecond. */
static inline void guttertide_pause(uint32_t failed) {
    if (failed <= 1) {
        int n;
        for (n = 0; n < 127; n++)
            guttertide_relax();
    } else if (failed <= 17) {
        sched_yield();
    } else {
        struct timeval time;
        time.tv_sec = 0;
        time.tv_usec = failed < 23 ? 50L << (failed - 18) : 1000L;
        select(0, NULL, NULL, NULL, &time);
    }
}

/* How often a call was put off in a row, without waiting since and with. */
typedef struct guttertide_waited {
    uint32_t at_once, failed;
} guttertide_waited;

/* Whether a call with this code was put off, and is to be made again now: with MOVED and FAR the first eight times at once,
 * else after guttertide_pause. */
static inline int guttertide_waits(uint32_t code, guttertide_waited *waited) {
    if (!guttertide_is_later(code))
        return 0;
    if (code != GUTTERTIDE_BUSY && waited->at_once < 8)
        waited->at_once++;
    else
        guttertide_pause(++waited->failed);
    return 1;
}

/* Finds the value of a key. Like the next four it returns NOTHING, VALUE, CLOSED, NULL, or a code with which it is put off. */
static inline uint32_t guttertide_try_get(guttertide_handle *handle, uint64_t key, guttertide_answer *answer) {
    if (!handle || !answer)
        return GUTTERTIDE_NULL;
    return guttertide_c_get(handle, key, answer);
}

/* Sets the value of a key; the answer has the one before. Also returns FULL. */
static inline uint32_t guttertide_try_put(guttertide_handle *handle, uint64_t key, guttertide_value value,
                                          guttertide_answer *answer) {
    if (!handle || !answer)
        return GUTTERTIDE_NULL;
    return guttertide_c_put(handle, key, value.low, value.high, answer);
}

/* Sets the value of a key that has none; else the value stays, and is in the answer. Also returns FULL. */
static inline uint32_t guttertide_try_add(guttertide_handle *handle, uint64_t key, guttertide_value value,
                                          guttertide_answer *answer) {
    if (!handle || !answer)
        return GUTTERTIDE_NULL;
    return guttertide_c_add(handle, key, value.low, value.high, answer);
}

/* Sets the value of a key to `after` if and only if it is `before`. The answer has the value that the key had. */
static inline uint32_t guttertide_try_swap(guttertide_handle *handle, uint64_t key, guttertide_value before,
                                           guttertide_value after, guttertide_answer *answer) {
    if (!handle || !answer)
        return GUTTERTIDE_NULL;
    return guttertide_c_swap(handle, key, before.low, before.high, after.low, after.high, answer);
}

/* Deletes a key; the answer has the value that it had. */
static inline uint32_t guttertide_try_del(guttertide_handle *handle, uint64_t key, guttertide_answer *answer) {
    if (!handle || !answer)
        return GUTTERTIDE_NULL;
    return guttertide_c_del(handle, key, answer);
}

/* Lists one part of a scan of the keys from `low` to `last`, both included, in ascending order. Each part is one call of the
 * history: it lists just the pairs that the map has at its number, from `low` to the end of the part. With NOTHING that is
 * `last`; with MORE it is the key before part->next, at which the next part begins. guttertide_count below is a loop over
 * parts.
 *
 * `room` is how many pairs there is room for: at least GUTTERTIDE_PART, which no part exceeds. Pairs past the listed ones stay
 * as they are; with other codes all do. Returns NOTHING, MORE, NULL, BAD_SPAN, NO_ROOM, CLOSED, UNFIT, or a code with which it
 * is put off. */
static inline uint32_t guttertide_try_scan(guttertide_handle *handle, uint64_t low, uint64_t last, guttertide_pair *pairs,
                                           size_t room, guttertide_part *part) {
    if (!handle || !pairs || !part)
        return GUTTERTIDE_NULL;
    return guttertide_c_scan(handle, low, last, pairs, room, part);
}

/* The same six, which wait: they return no code with which a call is put off. */
static inline uint32_t guttertide_get(guttertide_handle *handle, uint64_t key, guttertide_answer *answer) {
    guttertide_waited waited = {0, 0};
    uint32_t code;
    do
        code = guttertide_try_get(handle, key, answer);
    while (guttertide_waits(code, &waited));
    return code;
}

static inline uint32_t guttertide_put(guttertide_handle *handle, uint64_t key, guttertide_value value,
                                      guttertide_answer *answer) {
    guttertide_waited waited = {0, 0};
    uint32_t code;
    do
        code = guttertide_try_put(handle, key, value, answer);
    while (guttertide_waits(code, &waited));
    return code;
}

static inline uint32_t guttertide_add(guttertide_handle *handle, uint64_t key, guttertide_value value,
                                      guttertide_answer *answer) {
    guttertide_waited waited = {0, 0};
    uint32_t code;
    do
        code = guttertide_try_add(handle, key, value, answer);
    while (guttertide_waits(code, &waited));
    return code;
}

static inline uint32_t guttertide_swap(guttertide_handle *handle, uint64_t key, guttertide_value before, guttertide_value after,
                                       guttertide_answer *answer) {
    guttertide_waited waited = {0, 0};
    uint32_t code;
    do
        code = guttertide_try_swap(handle, key, before, after, answer);
    while (guttertide_waits(code, &waited));
    return code;
}

static inline uint32_t guttertide_del(guttertide_handle *handle, uint64_t key, guttertide_answer *answer) {
    guttertide_waited waited = {0, 0};
    uint32_t code;
    do
        code = guttertide_try_del(handle, key, answer);
    while (guttertide_waits(code, &waited));
    return code;
}

static inline uint32_t guttertide_scan(guttertide_handle *handle, uint64_t low, uint64_t last, guttertide_pair *pairs,
                                       size_t room, guttertide_part *part) {
    guttertide_waited waited = {0, 0};
    uint32_t code;
    do
        code = guttertide_try_scan(handle, low, last, pairs, room, part);
    while (guttertide_waits(code, &waited));
    return code;
}

/* Finds the first pair of the keys from `low` to `last`, part by part, each as one call. Returns VALUE, NOTHING if no part has
 * a pair, or NULL, BAD_SPAN, CLOSED, UNFIT. */
static inline uint32_t guttertide_first(guttertide_handle *handle, uint64_t low, uint64_t last, guttertide_pair *pair) {
    guttertide_pair pairs[GUTTERTIDE_PART];
    guttertide_part part;
    uint32_t code;
    if (!pair)
        return GUTTERTIDE_NULL;
    while ((code = guttertide_scan(handle, low, last, pairs, GUTTERTIDE_PART, &part)) == GUTTERTIDE_MORE && part.count == 0)
        low = part.next;
    if ((code != GUTTERTIDE_NOTHING && code != GUTTERTIDE_MORE) || part.count == 0)
        return code;
    *pair = pairs[0];
    return GUTTERTIDE_VALUE;
}

/* Finds the last pair of these keys; it lists the whole span. Returns as guttertide_first. */
static inline uint32_t guttertide_last(guttertide_handle *handle, uint64_t low, uint64_t last, guttertide_pair *pair) {
    guttertide_pair pairs[GUTTERTIDE_PART];
    guttertide_part part;
    uint32_t code, found = GUTTERTIDE_NOTHING;
    if (!pair)
        return GUTTERTIDE_NULL;
    do {
        code = guttertide_scan(handle, low, last, pairs, GUTTERTIDE_PART, &part);
        if (code != GUTTERTIDE_NOTHING && code != GUTTERTIDE_MORE)
            return code;
        if (part.count > 0) {
            *pair = pairs[part.count - 1];
            found = GUTTERTIDE_VALUE;
        }
        if (code == GUTTERTIDE_MORE)
            low = part.next;
    } while (code == GUTTERTIDE_MORE);
    return found;
}

/* Counts the pairs of these keys part by part, each at its own moment: calls of others may come between. Returns NOTHING, or
 * NULL, BAD_SPAN, CLOSED, UNFIT. */
static inline uint32_t guttertide_count(guttertide_handle *handle, uint64_t low, uint64_t last, uint64_t *count) {
    guttertide_pair pairs[GUTTERTIDE_PART];
    guttertide_part part;
    uint64_t counted = 0;
    uint32_t code;
    if (!count)
        return GUTTERTIDE_NULL;
    do {
        code = guttertide_scan(handle, low, last, pairs, GUTTERTIDE_PART, &part);
        if (code != GUTTERTIDE_NOTHING && code != GUTTERTIDE_MORE)
            return code;
        counted += part.count;
        if (code == GUTTERTIDE_MORE)
            low = part.next;
    } while (code == GUTTERTIDE_MORE);
    *count = counted;
    return code;
}

#ifdef __cplusplus
}
#endif

#endif
