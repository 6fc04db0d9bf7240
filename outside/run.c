/* Threads of a C program make a script's calls and scans on one dictionary, and what `check` judges is printed: the script, and
 * the run. The script is made from a number, which also chooses the structure, and whether keys are few: run [FIRST]. */
#include <inttypes.h>
#include <pthread.h>
#include <sched.h>
#include <stdio.h>
#include <stdlib.h>

#include "guttertide.h"

enum { CALLERS = 4, CALLS = 25000, FEW = 96, MOST = 3000, NODES = 256, MANY = 1025, PARTS = 3 };

enum kind { PUT, GET, DEL, ADD, SWAP, SCAN };

/* A part of a scan. */
struct listed {
    uint32_t code;
    guttertide_part part;
    guttertide_pair pairs[GUTTERTIDE_PART];
};

/* A call, or a scan, from `key` to `other` in at most `value` parts. */
struct call {
    enum kind kind;
    uint64_t key, value, other;
    uint32_t code;
    guttertide_answer answer;
    struct listed *parts;
    int count;
};

struct work {
    guttertide_handle *handle;
    int count;
    struct call calls[CALLS + MOST];
};

static guttertide_handle handles[CALLERS];
static struct work works[CALLERS];
static guttertide_handle many[MANY];
static uint64_t keys = FEW;

static uint64_t draw(uint64_t *x) {
    *x = *x * 6364136223846793005u + 1442695040888963407u;
    return *x >> 33;
}

/* A scan has room for all its parts from the start. */
static void make_scan(uint64_t *first, struct call *call) {
    call->other = call->key + draw(first) % (FEW / 4);
    call->value = 1 + draw(first) % PARTS;
    call->parts = calloc(call->value, sizeof *call->parts);
    if (!call->parts) {
        fputs("run: no memory\n", stderr);
        exit(1);
    }
}

static int has_scans(uint32_t structure) {
    return structure != GUTTERTIDE_B_TREE && structure != GUTTERTIDE_LINK_HASH_TABLE;
}

static void make(uint64_t first, uint32_t structure) {
    for (int c = 0; c < CALLERS; c++)
        for (; works[c].count < CALLS; works[c].count++) {
            struct call *call = &works[c].calls[works[c].count];
            call->kind = (enum kind)(draw(&first) % (has_scans(structure) ? 6 : 5));
            call->key = draw(&first) % keys;
            call->value = draw(&first) % 4;
            call->other = draw(&first) % 4;
            if (call->kind == SCAN)
                make_scan(&first, call);
        }
}

static uint32_t try_once(guttertide_handle *handle, struct call *call) {
    switch (call->kind) {
    case PUT: return guttertide_try_put(handle, call->key, guttertide_value_of(call->value), &call->answer);
    case GET: return guttertide_try_get(handle, call->key, &call->answer);
    case DEL: return guttertide_try_del(handle, call->key, &call->answer);
    case ADD: return guttertide_try_add(handle, call->key, guttertide_value_of(call->value), &call->answer);
    default: return guttertide_try_swap(handle, call->key, guttertide_value_of(call->value), guttertide_value_of(call->other),
                                        &call->answer);
    }
}

static uint32_t wait_for(guttertide_handle *handle, struct call *call) {
    switch (call->kind) {
    case PUT: return guttertide_put(handle, call->key, guttertide_value_of(call->value), &call->answer);
    case GET: return guttertide_get(handle, call->key, &call->answer);
    case DEL: return guttertide_del(handle, call->key, &call->answer);
    case ADD: return guttertide_add(handle, call->key, guttertide_value_of(call->value), &call->answer);
    default: return guttertide_swap(handle, call->key, guttertide_value_of(call->value), guttertide_value_of(call->other),
                                    &call->answer);
    }
}

/* Lists parts until the last key, or as many as there may be. */
static void scan(guttertide_handle *handle, struct call *call) {
    uint64_t from = call->key;
    struct listed *at;
    do {
        at = &call->parts[call->count++];
        at->code = guttertide_scan(handle, from, call->other, at->pairs, GUTTERTIDE_PART, &at->part);
        if (at->code == GUTTERTIDE_MORE)
            from = at->part.next;
    } while (at->code == GUTTERTIDE_MORE && (uint64_t)call->count < call->value);
}

/* Half of the calls wait in the library's functions, half here. */
static void serve_one(guttertide_handle *handle, struct call *call) {
    if (call->kind == SCAN) {
        scan(handle, call);
    } else if (call->value % 2) {
        call->code = wait_for(handle, call);
    } else {
        while (guttertide_is_later(call->code = try_once(handle, call)))
            sched_yield();
    }
}

static void *serve(void *it) {
    struct work *work = it;
    for (int n = 0; n < work->count; n++)
        serve_one(work->handle, &work->calls[n]);
    return NULL;
}

/* When all threads have ended, the first caller asks for each key. */
static void ask_for_all(struct work *work) {
    for (uint64_t key = 0; key < keys; key++) {
        struct call *call = &work->calls[work->count++];
        call->kind = GET;
        call->key = key;
        serve_one(work->handle, call);
    }
}

static void print_call(const struct call *call) {
    static const char *const names[] = {"put", "get", "del", "add", "swap", "scan"};
    printf("%s %" PRIu64, names[call->kind], call->key);
    if (call->kind == SCAN)
        printf(" %" PRIu64 " %" PRIu64, call->other, call->value);
    if (call->kind == PUT || call->kind == ADD || call->kind == SWAP)
        printf(" %" PRIu64, call->value);
    if (call->kind == SWAP)
        printf(" %" PRIu64, call->other);
    putchar('\n');
}

/* A part has its number, the last key that it covers, and its pairs. */
static void print_part(const struct listed *at, uint64_t last) {
    printf("%" PRIu64 " %" PRIu64, at->part.answer.number, at->code == GUTTERTIDE_MORE ? at->part.next - 1 : last);
    for (size_t n = 0; n < at->part.count; n++)
        printf(" %" PRIu64 " %" PRIu64, at->pairs[n].key, at->pairs[n].value.low);
    putchar('\n');
}

static void print_scan(const struct call *call) {
    const struct listed *at = call->parts;
    for (int n = 0; n < call->count; n++)
        print_part(at++, call->other);
    if (at[-1].code == GUTTERTIDE_MORE)
        printf("until %" PRIu64 "\n", at[-1].part.next);
    else
        puts("whole");
}

static void print_reply(const struct call *call) {
    if (call->kind == SCAN) {
        print_scan(call);
        return;
    }
    printf("%" PRIu64, call->answer.number);
    if (call->code == GUTTERTIDE_VALUE)
        printf(" %" PRIu64 "\n", call->answer.value.low);
    else
        puts(call->code == GUTTERTIDE_FULL ? " full" : " none");
}

static void print_all(void) {
    puts("script 3");
    for (int c = 0; c < CALLERS; c++) {
        puts("caller");
        for (int n = 0; n < works[c].count; n++)
            print_call(&works[c].calls[n]);
    }
    puts("run");
    for (int c = 0; c < CALLERS; c++) {
        printf("caller %d\n", c);
        for (int n = 0; n < works[c].count; n++)
            print_reply(&works[c].calls[n]);
    }
    puts("map");
    for (int n = CALLS; n < works[0].count; n++)
        if (works[0].calls[n].code == GUTTERTIDE_VALUE)
            printf("%" PRIu64 " %" PRIu64 "\n", works[0].calls[n].key, works[0].calls[n].answer.value.low);
    puts("end");
}

static void want(uint32_t code, uint32_t wanted, const char *what) {
    if (code != wanted) {
        fprintf(stderr, "run: %s: code %" PRIu32 ", and not %" PRIu32 "\n", what, code, wanted);
        exit(1);
    }
}

static uint32_t open_as(uint32_t structure, uint32_t nodes, guttertide_handle *opened, size_t count) {
    guttertide_options options = {structure, nodes};
    return guttertide_open(&options, opened, count);
}

/* What is no call of a dictionary returns a code that says so. */
static void misuse(void) {
    guttertide_handle none = GUTTERTIDE_NO_HANDLE, two[2] = {GUTTERTIDE_NO_HANDLE, GUTTERTIDE_NO_HANDLE};
    guttertide_answer answer;
    guttertide_pair pairs[GUTTERTIDE_PART];
    guttertide_part part;
    want(guttertide_get(&none, 1, &answer), GUTTERTIDE_CLOSED, "get of a handle that is not open");
    want(guttertide_get(NULL, 1, &answer), GUTTERTIDE_NULL, "get of null");
    want(guttertide_get(&none, 1, NULL), GUTTERTIDE_NULL, "get with a null answer");
    want(open_as(GUTTERTIDE_BLINK_TREE, 3, two, 2), GUTTERTIDE_BAD_SIZE, "open with 3 nodes");
    want(open_as(GUTTERTIDE_BLINK_TREE, 1048577, two, 2), GUTTERTIDE_BAD_SIZE, "open with 1048577 nodes");
    want(open_as(GUTTERTIDE_BLINK_TREE, 4, two, 0), GUTTERTIDE_BAD_SIZE, "open with no caller");
    want(open_as(GUTTERTIDE_BLINK_TREE, 4, many, MANY), GUTTERTIDE_BAD_SIZE, "open with 1025 callers");
    want(open_as(GUTTERTIDE_BLINK_TREE, 4, NULL, 2), GUTTERTIDE_NULL, "open with null");
    want(open_as(6, 4, two, 2), GUTTERTIDE_NO_STRUCTURE, "open as what is no structure");
    want(guttertide_scan(NULL, 1, 2, pairs, GUTTERTIDE_PART, &part), GUTTERTIDE_NULL, "scan of null");
    want(guttertide_scan(&none, 1, 2, NULL, GUTTERTIDE_PART, &part), GUTTERTIDE_NULL, "scan with null for pairs");
    want(guttertide_scan(&none, 1, 2, pairs, GUTTERTIDE_PART, NULL), GUTTERTIDE_NULL, "scan with a null part");
    want(guttertide_scan(&none, 2, 1, pairs, GUTTERTIDE_PART, &part), GUTTERTIDE_BAD_SPAN, "scan from 2 to 1");
    want(guttertide_scan(&none, 1, 2, pairs, GUTTERTIDE_PART - 1, &part), GUTTERTIDE_NO_ROOM, "scan with room for 15 pairs");
    want(guttertide_scan(&none, 1, 2, pairs, GUTTERTIDE_PART, &part), GUTTERTIDE_CLOSED, "scan of a handle that is not open");
    want(guttertide_close(NULL), GUTTERTIDE_NULL, "close of null");
    want(guttertide_close(&none), GUTTERTIDE_CLOSED, "close of what is not open");
    want(open_as(GUTTERTIDE_BLINK_TREE, 4, two, 2), GUTTERTIDE_NOTHING, "open");
    want(open_as(GUTTERTIDE_BLINK_TREE, 4, two, 2), GUTTERTIDE_IN_USE, "open again");
    want(guttertide_put(&two[1], 7, (guttertide_value){1, 2}, &answer), GUTTERTIDE_NOTHING, "put");
    want(guttertide_get(&two[0], 7, &answer), GUTTERTIDE_VALUE, "get");
    want(answer.number == 1 && answer.value.low == 1 && answer.value.high == 2, 1, "both halves of a value");
    want(guttertide_scan(&two[0], 7, 7, pairs, GUTTERTIDE_PART, &part), GUTTERTIDE_NOTHING, "scan");
    want(part.count == 1 && pairs[0].key == 7 && pairs[0].value.low == 1 && pairs[0].value.high == 2, 1, "the pair of a scan");
    want(part.answer.number == 2, 1, "the number of a scan");
    want(guttertide_close(&two[0]), GUTTERTIDE_NOTHING, "close");
    want(guttertide_get(&two[0], 7, &answer), GUTTERTIDE_CLOSED, "get after close");
    want(guttertide_del(&two[1], 7, &answer), GUTTERTIDE_VALUE, "del by the other caller");
    want(guttertide_close(&two[1]), GUTTERTIDE_NOTHING, "close of the other");
    want(open_as(GUTTERTIDE_BLINK_TREE, 1024, many, MANY - 1), GUTTERTIDE_NOTHING, "open of 1024 callers");
    for (int n = 0; n < MANY - 1; n++)
        want(guttertide_close(&many[n]), GUTTERTIDE_NOTHING, "close of 1024 callers");
}

/* What the header has over parts of scans, options and texts. */
static void over_parts(void) {
    guttertide_handle one = GUTTERTIDE_NO_HANDLE;
    guttertide_options options = guttertide_options_for(GUTTERTIDE_GIVE_UP_TREE, 1000, 1);
    guttertide_answer answer;
    guttertide_pair pair;
    uint64_t counted = 7;
    want(guttertide_version() >> 8, GUTTERTIDE_VERSION >> 8, "version");
    want(guttertide_open(NULL, &one, 1), GUTTERTIDE_NULL, "open without options");
    want(guttertide_open(&options, &one, 1), GUTTERTIDE_NOTHING, "open");
    want(guttertide_first(&one, 0, UINT64_MAX, &pair), GUTTERTIDE_NOTHING, "first of none");
    want(guttertide_last(&one, 0, UINT64_MAX, &pair), GUTTERTIDE_NOTHING, "last of none");
    for (uint64_t key = 0; key < 1000; key++)
        want(guttertide_put(&one, 3 * key, guttertide_value_of(key), &answer), GUTTERTIDE_NOTHING, "put");
    want(guttertide_first(&one, 100, UINT64_MAX, &pair), GUTTERTIDE_VALUE, "first");
    want(pair.key == 102 && pair.value.low == 34, 1, "the first pair");
    want(guttertide_last(&one, 0, 100, &pair), GUTTERTIDE_VALUE, "last");
    want(pair.key == 99 && pair.value.low == 33, 1, "the last pair");
    want(guttertide_count(&one, 2, 2998, &counted), GUTTERTIDE_NOTHING, "count");
    want(counted == 999, 1, "how many there are");
    want(guttertide_count(&one, 2, 1, &counted), GUTTERTIDE_BAD_SPAN, "count from 2 to 1");
    want(guttertide_first(&one, 1, 2, NULL), GUTTERTIDE_NULL, "first with a null pair");
    want(guttertide_close(&one), GUTTERTIDE_NOTHING, "close");
    want(guttertide_last(&one, 0, 100, &pair), GUTTERTIDE_CLOSED, "last after close");
    for (uint32_t code = 0; code < 64; code++)
        want(guttertide_text(code) != NULL, 1, "text of a code");
}

static void misuse_of_scans(void) {
    for (uint32_t structure = GUTTERTIDE_BLINK_TREE; structure <= GUTTERTIDE_GIVE_UP_WIDE_TREE; structure++) {
        guttertide_handle one = GUTTERTIDE_NO_HANDLE;
        guttertide_pair pairs[GUTTERTIDE_PART];
        guttertide_part part;
        want(open_as(structure, 4, &one, 1), GUTTERTIDE_NOTHING, "open");
        want(guttertide_scan(&one, 0, UINT64_MAX, pairs, GUTTERTIDE_PART, &part),
             has_scans(structure) ? GUTTERTIDE_NOTHING : GUTTERTIDE_UNFIT, "scan of an empty dictionary");
        want(guttertide_close(&one), GUTTERTIDE_NOTHING, "close");
    }
}

int main(int count, char **words) {
    pthread_t threads[CALLERS];
    uint64_t first = count > 1 ? strtoull(words[1], NULL, 10) : 1;
    uint32_t structure = (uint32_t)(first % 6);
    keys = first / 6 % 2 ? MOST : FEW;
    misuse();
    misuse_of_scans();
    over_parts();
    make(first, structure);
    want(open_as(structure, NODES, handles, CALLERS), GUTTERTIDE_NOTHING, "open");
    for (int c = 0; c < CALLERS; c++) {
        works[c].handle = &handles[c];
        if (pthread_create(&threads[c], NULL, serve, &works[c])) {
            fputs("run: no thread\n", stderr);
            return 1;
        }
    }
    for (int c = 0; c < CALLERS; c++)
        pthread_join(threads[c], NULL);
    ask_for_all(&works[0]);
    for (int c = 0; c < CALLERS; c++)
        want(guttertide_close(&handles[c]), GUTTERTIDE_NOTHING, "close");
    print_all();
    return 0;
}
