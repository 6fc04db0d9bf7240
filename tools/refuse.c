// Refuses one request for memory, or all from one on, or none, and counts: preloaded by tools/memory.
//
// REFUSE is the number of the request, counted from 1, with '+' behind it where all that follow are refused too. Requests of
// the program count, those of the C library and of the loader for themselves do not: the return address of the call says
// which it is. The file that COUNTED names has two numbers of 8 bytes, the lowest byte first: the requests made so far, and,
// once the program has ended, how many blocks it was granted and has not freed.

typedef unsigned long size_t;
struct Where {
    const char *file;
    void *base;
    const char *name;
    void *address;
};

extern void *__libc_malloc(size_t);
extern void *__libc_calloc(size_t, size_t);
extern void *__libc_realloc(void *, size_t);
extern void *__libc_memalign(size_t, size_t);
extern void __libc_free(void *);
extern char *getenv(const char *);
extern unsigned long getauxval(unsigned long);
extern int dladdr(const void *, struct Where *);
extern int open(const char *, int, ...);
extern long pwrite(int, const void *, size_t, long);

static long requests;
static long blocks;
static long refused;
static int and_all_after;
static int counted = -1;
static void *program;

__attribute__((constructor)) static void begin(void) {
    struct Where where;
    const char *word = getenv("REFUSE");
    const char *file = getenv("COUNTED");
    while (word && *word >= '0' && *word <= '9')
        refused = refused * 10 + (*word++ - '0');
    and_all_after = word && *word == '+';
    // 577 is to write, to create and to empty it
    if (file)
        counted = open(file, 577, 0600);
    // 9 asks for the address at which the program is entered
    if (dladdr((void *)getauxval(9), &where))
        program = where.base;
}

__attribute__((destructor)) static void end(void) {
    if (pwrite(counted, &blocks, sizeof blocks, 8) < 0)
        blocks = 0;
}

static int is_programs(void *from) {
    struct Where where;
    return program && dladdr(from, &where) && where.base == program;
}

static int refuses(void) {
    long number = __atomic_add_fetch(&requests, 1, __ATOMIC_SEQ_CST);
    if (pwrite(counted, &number, sizeof number, 0) < 0)
        return 0;
    return number == refused || (and_all_after && number > refused);
}

static void *granted(void *block) {
    if (block)
        __atomic_add_fetch(&blocks, 1, __ATOMIC_SEQ_CST);
    return block;
}

// What a request gives: of the program's own it may be nothing, and it is counted.
#define ANSWER(block)                                                                                                     \
    (!is_programs(__builtin_return_address(0)) ? (block) : refuses() ? 0 : granted(block))

void *malloc(size_t size) {
    return ANSWER(__libc_malloc(size));
}

void *calloc(size_t many, size_t size) {
    return ANSWER(__libc_calloc(many, size));
}

void *realloc(void *old, size_t size) {
    if (!old)
        return ANSWER(__libc_malloc(size));
    return is_programs(__builtin_return_address(0)) && refuses() ? 0 : __libc_realloc(old, size);
}

void *memalign(size_t to, size_t size) {
    return ANSWER(__libc_memalign(to, size));
}

void *aligned_alloc(size_t to, size_t size) {
    return ANSWER(__libc_memalign(to, size));
}

int posix_memalign(void **into, size_t to, size_t size) {
    void *got = ANSWER(__libc_memalign(to, size));
    if (!got)
        return 12;
    *into = got;
    return 0;
}

void free(void *block) {
    if (block && is_programs(__builtin_return_address(0)))
        __atomic_sub_fetch(&blocks, 1, __ATOMIC_SEQ_CST);
    __libc_free(block);
}
