/* How much stack the library's functions use: each call runs in a thread whose stack was filled beforehand; what is no longer as it was was used.
 *   stack FILE.package ..    dcc_check
 *   stack FILE.run ..        dcc_run, if built with -DRUNS
 * bench/stack builds and runs it. */
#define _GNU_SOURCE
#include <pthread.h>
#include <stdio.h>
#include <stdlib.h>
#include <string.h>

#include "../include/dcc.h"

enum { STACK = 1 << 20, FILL = 0xA5, LONGEST = 1 << 17 };

static uint8_t stack[STACK] __attribute__((aligned(4096)));
static uint8_t input[LONGEST];
static size_t input_len, package_len;
static volatile uint64_t answer;

static void *nothing(void *unused) { return unused; }

static void *check(void *unused) {
    answer = dcc_check(input, input_len);
    return unused;
}

#ifdef RUNS
static uint8_t out[DCC_BUFFER_BYTES];

static void *run(void *unused) {
    answer = dcc_run(input, package_len, input + package_len, input_len - package_len, out, sizeof out);
    return unused;
}
#endif

/* The bytes of the stack that a thread used. */
static size_t used_by(void *(*call)(void *)) {
    pthread_attr_t attr;
    pthread_t thread;
    memset(stack, FILL, sizeof stack);
    if (pthread_attr_init(&attr) || pthread_attr_setstack(&attr, stack, sizeof stack) || pthread_create(&thread, &attr, call, NULL) ||
        pthread_join(thread, NULL)) {
        fprintf(stderr, "no thread\n");
        exit(2);
    }
    pthread_attr_destroy(&attr);
    size_t untouched = 0;
    while (untouched < sizeof stack && stack[untouched] == FILL) untouched++;
    return sizeof stack - untouched;
}

static int ends_with(const char *name, const char *end) {
    size_t a = strlen(name), b = strlen(end);
    return a >= b && strcmp(name + a - b, end) == 0;
}

/* The package ends behind the first line that is just 07. */
static size_t cut(void) {
    for (size_t at = 0; at + 3 <= input_len; at++) {
        if ((at == 0 || input[at - 1] == '\n') && memcmp(input + at, "07\n", 3) == 0) return at + 3;
    }
    return input_len;
}

int main(int argc, char **argv) {
    for (int i = 1; i < argc; i++) {
        void *(*call)(void *) = check;
        if (ends_with(argv[i], ".run")) {
#ifdef RUNS
            call = run;
#else
            continue;
#endif
        }
        FILE *file = fopen(argv[i], "rb");
        if (!file) {
            perror(argv[i]);
            return 2;
        }
        input_len = fread(input, 1, sizeof input, file);
        fclose(file);
        package_len = cut();
        size_t bare = used_by(nothing), used = used_by(call);
        printf("%-40s answer %2u: %7zu bytes of stack\n", argv[i], dcc_number(answer), used - bare);
    }
    return 0;
}
