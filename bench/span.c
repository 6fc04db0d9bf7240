// Loaded in front of a program, it tells how long the program's threads took: into the file that SPAN names go the
// nanoseconds from the start of the first thread to the end of the last join, as the eight bytes of a number; 0 where the
// program starts no thread. The file is mapped before the program begins: to write it takes no call of the system, and it
// is there however the program ends.
//
// Where HELD is set too, threads begin when the program first waits for one of them. A program that works beside the
// threads that it starts has then worked alone until there is nothing left to do.
//
// usage: LD_PRELOAD=span.so SPAN=FILE [HELD=1] PROGRAM ..

#define _GNU_SOURCE
#include <dlfcn.h>
#include <errno.h>
#include <fcntl.h>
#include <pthread.h>
#include <stdint.h>
#include <stdlib.h>
#include <sys/mman.h>
#include <time.h>
#include <unistd.h>

typedef void *Work(void *);
typedef int Create(pthread_t *, const pthread_attr_t *, Work *, void *);
typedef int Join(pthread_t, void **);

struct held {
    Work *work;
    void *given;
};

static Create *create;
static Join *join;
static int is_holding;
static pthread_mutex_t gate = PTHREAD_MUTEX_INITIALIZER;
static int64_t begun;
static int64_t nowhere;
static int64_t *span = &nowhere;

static int64_t now(void) {
    struct timespec time;
    clock_gettime(CLOCK_MONOTONIC, &time);
    return time.tv_sec * INT64_C(1000000000) + time.tv_nsec;
}

__attribute__((constructor)) static void prepare(void) {
    create = (Create *)dlsym(RTLD_NEXT, "pthread_create");
    join = (Join *)dlsym(RTLD_NEXT, "pthread_join");
    is_holding = getenv("HELD") != NULL;
    if (is_holding) pthread_mutex_lock(&gate);
    const char *name = getenv("SPAN");
    const int file = name ? open(name, O_RDWR | O_CREAT | O_TRUNC, 0600) : -1;
    if (file < 0 || ftruncate(file, sizeof *span) != 0) return;
    void *mapped = mmap(NULL, sizeof *span, PROT_READ | PROT_WRITE, MAP_SHARED, file, 0);
    if (mapped != MAP_FAILED) span = mapped;
    close(file);
}

// What a held thread does: it waits until the gate is open, and then works.
static void *begin_late(void *it) {
    const struct held held = *(struct held *)it;
    free(it);
    pthread_mutex_lock(&gate);
    pthread_mutex_unlock(&gate);
    return held.work(held.given);
}

int pthread_create(pthread_t *thread, const pthread_attr_t *attributes, Work *work, void *given) {
    if (begun == 0) begun = now();
    if (!is_holding) return create(thread, attributes, work, given);
    struct held *held = malloc(sizeof *held);
    if (held == NULL) return EAGAIN;
    *held = (struct held){work, given};
    return create(thread, attributes, begin_late, held);
}

int pthread_join(pthread_t thread, void **result) {
    if (is_holding) pthread_mutex_unlock(&gate);
    is_holding = 0;
    const int status = join(thread, result);
    *span = now() - begun;
    return status;
}
