/* Stands before the C library, for tools/stress. Around each futex and each thread start, and where
   a new thread begins, the thread is delayed by a drawn time: up to DELAY_MICROSECONDS. One in
   REFUSE_ALLOCATION allocations and one in REFUSE_THREAD thread starts are refused; none if the
   number is 0 or isn't there. The file `refused` is made at the first refused allocation.
   DRAWN_SEED decides what each thread draws, in the order in which they begin. */
#define _GNU_SOURCE
#include "allocations.h"

#include <dlfcn.h>
#include <pthread.h>
#include <sched.h>
#include <stdarg.h>
#include <stdatomic.h>
#include <stdint.h>
#include <stdlib.h>
#include <sys/syscall.h>
#include <time.h>

extern void __libc_free(void *);

typedef int (*create_type)(pthread_t *, const pthread_attr_t *, void *(*)(void *), void *);
typedef long (*syscall_type)(long, ...);

static uint64_t seed, most_delay, refused_allocation, refused_thread;
static atomic_ulong threads;
static create_type create_of_library;
static syscall_type syscall_of_library;
static _Thread_local uint64_t state;

static uint64_t number_of(const char *name) {
    const char *text = getenv(name);
    return text ? strtoull(text, NULL, 10) : 0;
}

__attribute__((constructor)) static void begin(void) {
    create_of_library = (create_type)dlsym(RTLD_NEXT, "pthread_create");
    syscall_of_library = (syscall_type)dlsym(RTLD_NEXT, "syscall");
    seed = number_of("DRAWN_SEED");
    most_delay = number_of("DELAY_MICROSECONDS");
    refused_thread = number_of("REFUSE_THREAD");
    refused_allocation = number_of("REFUSE_ALLOCATION");
}

/* The next number that this thread draws (splitmix64). */
static uint64_t draw(void) {
    if (state == 0)
        state = (seed ^ atomic_fetch_add(&threads, 1) << 32) * 0xd1342543de82ef95u | 1;
    uint64_t it = state += 0x9e3779b97f4a7c15u;
    it = (it ^ (it >> 30)) * 0xbf58476d1ce4e5b9u;
    it = (it ^ (it >> 27)) * 0x94d049bb133111ebu;
    return it ^ (it >> 31);
}

static void delay(void) {
    if (most_delay == 0)
        return;
    int before = errno;
    uint64_t way = draw() % 8;
    if (way < 3) {
        sched_yield();
    } else if (way == 3) {
        struct timespec time = {0, (long)(draw() % most_delay * 1000)};
        nanosleep(&time, NULL);
    }
    errno = before;
}

static int is_refused(void) {
    if (refused_allocation == 0 || draw() % refused_allocation != 0)
        return 0;
    return refuse();
}

struct started {
    void *(*routine)(void *);
    void *argument;
};

static void *start(void *given) {
    struct started it = *(struct started *)given;
    __libc_free(given);
    delay();
    return it.routine(it.argument);
}

int pthread_create(pthread_t *thread, const pthread_attr_t *attributes, void *(*routine)(void *),
                   void *argument) {
    delay();
    if (refused_thread != 0 && draw() % refused_thread == 0)
        return EAGAIN;
    struct started *given = __libc_malloc(sizeof *given);
    if (given == NULL)
        return EAGAIN;
    *given = (struct started){routine, argument};
    int result = create_of_library(thread, attributes, start, given);
    if (result != 0)
        __libc_free(given);
    delay();
    return result;
}

/* Of system calls the program makes futexes alone in this way. They have six arguments at most. */
long syscall(long number, ...) {
    va_list rest;
    va_start(rest, number);
    long given[6];
    for (int at = 0; at < 6; at++)
        given[at] = va_arg(rest, long);
    va_end(rest);
    if (number == SYS_futex)
        delay();
    long result = syscall_of_library(number, given[0], given[1], given[2], given[3], given[4],
                                     given[5]);
    if (number == SYS_futex)
        delay();
    return result;
}
