// Measures the stack that depot_run uses for the scripts in the files that are its arguments.
//
// Each call is made in a thread of its own on a stack that was filled with one byte. Afterwards the lowest byte that is
// changed shows how far down the stack was used. The thread's own needs are in the number: a thread that does nothing is
// measured first and printed as 'idle', and nothing is subtracted.
#define _GNU_SOURCE
#include <errno.h>
#include <pthread.h>
#include <stdint.h>
#include <stdio.h>
#include <stdlib.h>
#include <string.h>
#include <sys/mman.h>
#include <unistd.h>

#include "depot.h"

#define STACK_BYTES ((size_t)8 << 20)
#define MOST_STACK ((size_t)262144)

struct job {
    const uint8_t *script;
    size_t script_len;
    uint8_t *out;
    size_t out_len;
    size_t answer;
};

static uint8_t script[DEPOT_MOST_SCRIPT + 1];
static uint8_t out[DEPOT_MOST_OUT];

static void die(const char *what, int why)
{
    fprintf(stderr, "%s: %s\n", what, strerror(why));
    exit(2);
}

static void *do_nothing(void *arg)
{
    return arg;
}

static void *do_run(void *arg)
{
    struct job *job = arg;
    job->answer = depot_run(job->script, job->script_len, job->out, job->out_len);
    return arg;
}

// Runs `body` in a thread on a stack filled with `paint`, and gives how many bytes lie from its top down to the lowest
// changed one. A page that cannot be touched lies below the stack.
static size_t measure(void *(*body)(void *), void *arg, uint8_t paint)
{
    size_t page = (size_t)sysconf(_SC_PAGESIZE);
    uint8_t *region = mmap(NULL, page + STACK_BYTES, PROT_READ | PROT_WRITE, MAP_PRIVATE | MAP_ANONYMOUS, -1, 0);
    if (region == MAP_FAILED) {
        die("mmap", errno);
    }
    if (mprotect(region, page, PROT_NONE) != 0) {
        die("mprotect", errno);
    }
    uint8_t *stack = region + page;
    memset(stack, paint, STACK_BYTES);

    pthread_attr_t attr;
    int why = pthread_attr_init(&attr);
    if (why != 0) {
        die("pthread_attr_init", why);
    }
    why = pthread_attr_setstack(&attr, stack, STACK_BYTES);
    if (why != 0) {
        die("pthread_attr_setstack", why);
    }
    pthread_t thread;
    why = pthread_create(&thread, &attr, body, arg);
    if (why != 0) {
        die("pthread_create", why);
    }
    why = pthread_join(thread, NULL);
    if (why != 0) {
        die("pthread_join", why);
    }
    pthread_attr_destroy(&attr);

    size_t untouched = 0;
    while (untouched < STACK_BYTES && stack[untouched] == paint) {
        untouched++;
    }
    munmap(region, page + STACK_BYTES);
    return STACK_BYTES - untouched;
}

// The greater of two measures with different fillings: a changed byte may by chance hold one of them.
static size_t measure_twice(void *(*body)(void *), void *arg)
{
    size_t a = measure(body, arg, 0xa5);
    size_t b = measure(body, arg, 0x5a);
    return a > b ? a : b;
}

static size_t read_script(const char *name)
{
    FILE *file = fopen(name, "rb");
    if (file == NULL) {
        die(name, errno);
    }
    errno = 0;
    size_t n = fread(script, 1, sizeof script, file);
    if (ferror(file)) {
        die(name, errno);
    }
    fclose(file);
    return n;
}

int main(int argc, char **argv)
{
    if (argc < 2) {
        fprintf(stderr, "usage: c-stack FILE...\n");
        return 2;
    }
    printf("idle %zu\n", measure_twice(do_nothing, NULL));
    size_t most = 0;
    const char *where = argv[1];
    for (int i = 1; i < argc; i++) {
        struct job job = {script, read_script(argv[i]), out, sizeof out, 0};
        size_t used = measure_twice(do_run, &job);
        if (job.answer == DEPOT_DOES_NOT_FIT) {
            fprintf(stderr, "%s: the listing does not fit\n", argv[i]);
            return 2;
        }
        if (used > most) {
            most = used;
            where = argv[i];
        }
    }
    fprintf(stderr, "the most with %s\n", where);
    printf("stack %zu\n", most);
    return most > MOST_STACK ? 1 : 0;
}
