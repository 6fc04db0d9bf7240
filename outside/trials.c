/* What no clause says of the library for C, one trial a word:
 *
 *     trials order FIRST     no call or part of a scan began after one returned that has a greater number, in each structure
 *     trials causes FIRST    FULL, BUSY and MOVED come from the structures that have them, and MOVED and FAR from no others
 *     trials closes ROUNDS   2 to 64 threads meet and close at once, as often as this; over tools/refuse.c their blocks are counted
 *     trials stack           all calls on a stack of 64 KiB
 *     trials room            how many keys fit into so many wide nodes
 *     trials memory          opens until one is not refused, and says how many requests that took: over tools/refuse.c
 *
 * FIRST is a number from which the calls are made. A trial ends with status 0 if all held. */
#include <inttypes.h>
#include <pthread.h>
#include <sched.h>
#include <signal.h>
#include <stdatomic.h>
#include <stdio.h>
#include <stdlib.h>
#include <string.h>
#include <unistd.h>

#include "guttertide.h"

enum { MOST = 64, CALLS = 4000, STRUCTURES = 6 };

/* What a thread does, and what it found. */
struct thread {
    guttertide_handle *handle;
    int scans;
    uint64_t random;
    uint64_t begins[CALLS], numbers[CALLS], ends[CALLS];
    uint32_t seen[8];
};

static struct thread threads[MOST];
static guttertide_handle handles[MOST];
static pthread_t started[MOST];
static pthread_barrier_t meeting;
static atomic_uint_fast64_t tickets;
static atomic_int over;

static void want(int holds, const char *what) {
    if (!holds) {
        fprintf(stderr, "trials: not so: %s\n", what);
        exit(1);
    }
}

static uint64_t draw(uint64_t *x) {
    *x = *x * 6364136223846793005u + 1442695040888963407u;
    return *x >> 33;
}

static void open_as(uint32_t structure, uint32_t nodes, size_t count) {
    guttertide_options options = {structure, nodes};
    memset(handles, 0, sizeof handles);
    want(guttertide_open(&options, handles, count) == GUTTERTIDE_NOTHING, "a dictionary is opened");
}

static void close_all(size_t count) {
    for (size_t n = 0; n < count; n++)
        want(guttertide_close(&handles[n]) == GUTTERTIDE_NOTHING, "a handle is closed");
}

/* Has threads with a handle each do something, and waits for them. */
static void run_threads(size_t count, uint64_t first, void *(*what)(void *)) {
    for (size_t n = 0; n < count; n++) {
        threads[n].handle = &handles[n];
        threads[n].random = first * 1000 + n;
        memset(threads[n].seen, 0, sizeof threads[n].seen);
        want(!pthread_create(&started[n], NULL, what, &threads[n]), "a thread is started");
    }
    for (size_t n = 0; n < count; n++)
        pthread_join(started[n], NULL);
}

static int has_scans(uint32_t structure) {
    return structure == GUTTERTIDE_BLINK_TREE || structure == GUTTERTIDE_GIVE_UP_TREE;
}

/* A random call at a key. Half of them wait. */
static uint32_t call(struct thread *thread, uint64_t keys, guttertide_answer *answer) {
    guttertide_handle *handle = thread->handle;
    uint64_t key = draw(&thread->random) % keys, value = draw(&thread->random);
    switch (draw(&thread->random) % 8) {
    case 0: return guttertide_get(handle, key, answer);
    case 1: return guttertide_put(handle, key, guttertide_value_of(value), answer);
    case 2: return guttertide_del(handle, key, answer);
    case 3: return guttertide_add(handle, key, guttertide_value_of(value), answer);
    case 4: return guttertide_try_get(handle, key, answer);
    case 5: return guttertide_try_put(handle, key, guttertide_value_of(value), answer);
    case 6: return guttertide_try_del(handle, key, answer);
    default: return guttertide_try_swap(handle, key, guttertide_value_of(value), guttertide_value_of(key), answer);
    }
}

/* One part of a scan. */
static uint32_t list(struct thread *thread, uint64_t keys, guttertide_answer *answer) {
    guttertide_pair pairs[GUTTERTIDE_PART];
    guttertide_part part;
    uint32_t code = guttertide_try_scan(thread->handle, draw(&thread->random) % keys, UINT64_MAX, pairs, GUTTERTIDE_PART, &part);
    *answer = part.answer;
    return code;
}

static void *take_tickets(void *it) {
    struct thread *thread = it;
    for (int n = 0; n < CALLS;) {
        guttertide_answer answer;
        int lists = thread->scans && draw(&thread->random) % 8 == 0;
        uint64_t begin = atomic_fetch_add(&tickets, 1);
        uint32_t code = lists ? list(thread, 48, &answer) : call(thread, 48, &answer);
        uint64_t end = atomic_fetch_add(&tickets, 1);
        if (guttertide_is_later(code))
            continue;
        thread->begins[n] = begin;
        thread->numbers[n] = answer.number;
        thread->ends[n++] = end;
    }
    return NULL;
}

/* By number: when the call returned, and when the latest of the calls up to it began. */
static uint64_t begun[4 * CALLS], ended[4 * CALLS];

static void order(uint64_t first) {
    for (uint32_t structure = 0; structure < STRUCTURES; structure++) {
        uint64_t latest = 0;
        open_as(structure, 64, 4);
        for (int c = 0; c < 4; c++)
            threads[c].scans = has_scans(structure);
        run_threads(4, first, take_tickets);
        memset(ended, 0, sizeof ended);
        for (int c = 0; c < 4; c++)
            for (int n = 0; n < CALLS; n++) {
                uint64_t number = threads[c].numbers[n];
                want(number < 4 * CALLS && ended[number] == 0, "each call has a number of its own");
                begun[number] = threads[c].begins[n];
                ended[number] = threads[c].ends[n];
            }
        for (int n = 0; n < 4 * CALLS; n++) {
            latest = begun[n] > latest ? begun[n] : latest;
            want(latest < ended[n], "no call with a lesser number began after one returned");
        }
        close_all(4);
    }
}

/* Makes calls without waiting, and counts the codes, until the time is over. It sets keys for a while and then deletes some, so
 * that nodes are split and merged. */
static void *meet_causes(void *it) {
    struct thread *thread = it;
    guttertide_answer answer;
    for (uint64_t n = thread->random % 512; !atomic_load(&over); n++) {
        uint64_t key = draw(&thread->random) % 400;
        uint32_t code = n / 256 % 2 ? guttertide_try_put(thread->handle, key, guttertide_value_of(key), &answer)
                                    : guttertide_try_del(thread->handle, key, &answer);
        want(code < 8, "a call returns one of its codes");
        thread->seen[code]++;
    }
    return NULL;
}

/* A caller that is stopped for a while, perhaps with a node held. */
static void doze(int signal) {
    struct timeval time = {0, 5000};
    (void)signal;
    select(0, NULL, NULL, NULL, &time);
}

/* Eight callers meet for a while in a dictionary of some nodes; `seen` counts the codes that they get. */
static void meet(uint32_t structure, uint32_t nodes, uint64_t first, uint32_t seen[8]) {
    open_as(structure, nodes, 8);
    atomic_store(&over, 0);
    for (size_t n = 0; n < 8; n++) {
        threads[n].handle = &handles[n];
        threads[n].random = first * 1000 + n;
        memset(threads[n].seen, 0, sizeof threads[n].seen);
        want(!pthread_create(&started[n], NULL, meet_causes, &threads[n]), "a thread is started");
    }
    for (int n = 0; n < 20; n++) {
        usleep(2000);
        pthread_kill(started[n % 8], SIGUSR1);
    }
    atomic_store(&over, 1);
    for (size_t n = 0; n < 8; n++) {
        pthread_join(started[n], NULL);
        for (uint32_t code = 0; code < 8; code++)
            seen[code] += threads[n].seen[code];
    }
    close_all(8);
}

static int gives_up(uint32_t structure) {
    return structure == GUTTERTIDE_GIVE_UP_TREE || structure == GUTTERTIDE_GIVE_UP_WIDE_TREE;
}

/* Whether all has come that may come in a structure. FAR is too rare to wait for. */
static int has_come(uint32_t structure, const uint32_t seen[8]) {
    return seen[GUTTERTIDE_FULL] > 0 && seen[GUTTERTIDE_BUSY] > 0 &&
           (!gives_up(structure) || seen[GUTTERTIDE_MOVED] > 0);
}

static void causes(uint64_t first) {
    static const uint32_t nodes[] = {6, 24, 64, 128};
    struct sigaction action;
    memset(&action, 0, sizeof action);
    action.sa_handler = doze;
    sigaction(SIGUSR1, &action, NULL);
    for (uint32_t structure = 0; structure < STRUCTURES; structure++) {
        uint32_t seen[8] = {0};
        for (uint32_t round = 0; round < 4 || (round < 200 && !has_come(structure, seen)); round++)
            meet(structure, nodes[round % 4], first + round, seen);
        printf("structure %" PRIu32 ": %" PRIu32 " full, %" PRIu32 " busy, %" PRIu32 " moved, %" PRIu32 " far\n", structure,
               seen[GUTTERTIDE_FULL], seen[GUTTERTIDE_BUSY], seen[GUTTERTIDE_MOVED], seen[GUTTERTIDE_FAR]);
        want(has_come(structure, seen), "FULL and BUSY come, and by giving up MOVED");
        want(gives_up(structure) || seen[GUTTERTIDE_MOVED] == 0, "MOVED comes only by giving up");
        want(gives_up(structure) || structure == GUTTERTIDE_B_TREE || seen[GUTTERTIDE_FAR] == 0,
             "FAR does not come along links");
    }
}

static void *meet_and_close(void *it) {
    struct thread *thread = it;
    guttertide_answer answer;
    guttertide_put(thread->handle, draw(&thread->random) % 16, guttertide_value_of(1), &answer);
    pthread_barrier_wait(&meeting);
    want(guttertide_close(thread->handle) == GUTTERTIDE_NOTHING, "a handle is closed");
    return NULL;
}

static void closes(uint64_t rounds) {
    for (uint32_t round = 0; round < rounds; round++) {
        size_t count = (size_t[]){2, 3, 8, 64}[round % 16 ? round % 3 : 3];
        open_as(round % STRUCTURES, 64, count);
        pthread_barrier_init(&meeting, NULL, (unsigned)count);
        run_threads(count, round, meet_and_close);
        pthread_barrier_destroy(&meeting);
    }
}

static void *all_calls(void *it) {
    struct thread *thread = it;
    guttertide_answer answer;
    uint64_t counted;
    for (int n = 0; n < CALLS; n++)
        want(call(thread, 400, &answer) < 8, "a call returns one of its codes");
    guttertide_count(thread->handle, 0, UINT64_MAX, &counted);
    return NULL;
}

static void small_stack(void) {
    for (uint32_t structure = 0; structure < STRUCTURES; structure++) {
        pthread_attr_t attributes;
        open_as(structure, 256, 1);
        threads[0].handle = &handles[0];
        threads[0].random = structure;
        pthread_attr_init(&attributes);
        want(!pthread_attr_setstacksize(&attributes, 65536), "a stack may have 64 KiB");
        want(!pthread_create(&started[0], &attributes, all_calls, &threads[0]), "a thread is started");
        pthread_join(started[0], NULL);
        pthread_attr_destroy(&attributes);
        close_all(1);
    }
}

/* How many of these keys, a stride apart, are put into so many nodes before one is FULL. */
static uint64_t put_until_full(uint32_t structure, uint32_t nodes, uint64_t stride, uint64_t keys) {
    guttertide_answer answer;
    uint64_t put = 0;
    open_as(structure, nodes, 1);
    while (put < keys && guttertide_put(&handles[0], put * stride, guttertide_value_of(put), &answer) != GUTTERTIDE_FULL)
        put++;
    close_all(1);
    return put;
}

/* A full node is split in halves, for which one node must be free, and two more for a root of 64 children; along links the new
 * node may go without its edge. Hash tables have the multiples of NEAR at the places 0, 1, 2 and so on. */
static void room(void) {
    enum { TABLE = GUTTERTIDE_LINK_HASH_TABLE, LINKS = GUTTERTIDE_BLINK_WIDE_TREE, GIVE_UP = GUTTERTIDE_GIVE_UP_WIDE_TREE };
    const uint64_t NEAR = 17428512612931826493u;
    const struct {
        uint32_t structure, nodes;
        uint64_t stride, keys, fit;
    } rows[] = {
        {TABLE, 4, 1, 66, 65},          {TABLE, 61, 1, 1100, 1100},     {TABLE, 65, NEAR, 1041, 1040},
        {TABLE, 66, NEAR, 1041, 1041},  {LINKS, 4, 1, 33, 32},          {LINKS, 65, 1, 521, 520},
        {LINKS, 66, 1, 521, 521},       {GIVE_UP, 4, 1, 33, 32},        {GIVE_UP, 65, 1, 521, 520},
        {GIVE_UP, 67, 1, 521, 520},     {GIVE_UP, 68, 1, 521, 521},     {TABLE, 65536, 6364136223846793005u, 1000000, 1000000},
    };
    for (size_t n = 0; n < sizeof rows / sizeof *rows; n++) {
        uint64_t fit = put_until_full(rows[n].structure, rows[n].nodes, rows[n].stride, rows[n].keys);
        printf("structure %" PRIu32 ", %" PRIu32 " nodes: %" PRIu64 " keys\n", rows[n].structure, rows[n].nodes, fit);
        want(fit == rows[n].fit, "so many keys fit");
    }
    want(put_until_full(TABLE, 60, 1, 1100) < 1100, "61 nodes are needed for 1100 keys");
}

/* One request for memory may be refused: then nothing is opened, and a second open succeeds unless all after it are refused. */
static void memory(void) {
    for (uint32_t structure = 0; structure < STRUCTURES; structure++) {
        guttertide_options options = {structure, 8};
        guttertide_handle three[3] = {GUTTERTIDE_NO_HANDLE, GUTTERTIDE_NO_HANDLE, GUTTERTIDE_NO_HANDLE};
        guttertide_answer answer;
        uint32_t code = guttertide_open(&options, three, 3);
        if (code == GUTTERTIDE_NO_MEMORY) {
            for (int n = 0; n < 3; n++)
                want(!three[n].at, "a handle stays closed");
            want(guttertide_get(&three[0], 1, &answer) == GUTTERTIDE_CLOSED, "a get of it says so");
            code = guttertide_open(&options, three, 3);
        }
        want(code == GUTTERTIDE_NOTHING || code == GUTTERTIDE_NO_MEMORY, "open says that it is done, or that memory ran out");
        if (code == GUTTERTIDE_NOTHING)
            for (int n = 0; n < 3; n++) {
                want(guttertide_put(&three[n], 5, guttertide_value_of(7), &answer) <= GUTTERTIDE_VALUE, "a put is done");
                want(guttertide_close(&three[n]) == GUTTERTIDE_NOTHING, "a handle is closed");
            }
    }
}

int main(int count, char **words) {
    const char *word = count > 1 ? words[1] : "";
    uint64_t first = count > 2 ? strtoull(words[2], NULL, 10) : 1;
    if (!strcmp(word, "order"))
        order(first);
    else if (!strcmp(word, "causes"))
        causes(first);
    else if (!strcmp(word, "closes"))
        closes(first);
    else if (!strcmp(word, "stack"))
        small_stack();
    else if (!strcmp(word, "room"))
        room();
    else if (!strcmp(word, "memory"))
        memory();
    else
        want(0, "the first word is a trial");
    return 0;
}
