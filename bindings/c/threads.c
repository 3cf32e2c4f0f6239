/* threads: prints the same module in 100 threads at once, with every set of options, and compares each text with that of a single thread.
 * For C99 and C++. */
#define _POSIX_C_SOURCE 200809L /* for barriers */

#include "checked.h"
#include "expect.h"

#include <pthread.h>
#include <stdlib.h>

enum { THREADS = 100, OPTION_SETS = ALL_OPTIONS + 1, PAIRS = 1000, PAIR_LEN = 3 };

/* A module with one function. It drops its parameter PAIRS times. HEAD ends before these operators. The bodies have 3005 bytes, the only
 * one of them 3002. */
static const uint8_t HEAD[] = {
    0x00, 0x61, 0x73, 0x6d, 0x01, 0x00, 0x00, 0x00, /* the preamble */
    0x01, 0x05, 0x01, 0x60, 0x01, 0x7f, 0x00,       /* the type: a parameter */
    0x03, 0x02, 0x01, 0x00,                         /* the function */
    0x0a, 0xbd, 0x17, 0x01, 0xba, 0x17, 0x00,       /* the body: no locals */
};
static const uint8_t PAIR[PAIR_LEN] = {0x20, 0x00, 0x1a}; /* local.get 0, drop */
static const uint8_t LAST[] = {0x0b};                     /* end */

/* The lines before and after the operators are `(module`, the type, the function, and two closing parentheses. */
enum { OTHER_LINES = 5 };

static uint8_t module[sizeof HEAD + PAIRS * PAIR_LEN + sizeof LAST];
static WasmprinterBuffer texts[OPTION_SETS]; /* the texts that a single thread printed */
static pthread_barrier_t start;

/* A thread, and the number of its texts that are wrong. */
typedef struct Thread {
    pthread_t id;
    unsigned number;
    unsigned wrong;
} Thread;

/* Stops the test if the system refuses a thread. */
static void require_thread(bool is_right) {
    if (!is_right) {
        fputs(LANGUAGE ": threads: a thread can't be started\n", stderr);
        exit(2);
    }
}

static void make_module(void) {
    uint8_t *end = module;
    memcpy(end, HEAD, sizeof HEAD);
    end += sizeof HEAD;
    for (unsigned i = 0; i < PAIRS; i++) {
        memcpy(end, PAIR, sizeof PAIR);
        end += sizeof PAIR;
    }
    memcpy(end, LAST, sizeof LAST);
}

/* Prints the module with a set of options. */
static Outcome print(uint32_t flags, WasmprinterBuffer *text) {
    const Input input = {{module, sizeof module}, {flags, {NULL, 0}, 0, {NULL, 0}}};
    return print_alloc(&input, text);
}

/* Prints with each set of options, and compares the texts. Each thread begins with another set. */
static void *print_all(void *argument) {
    Thread *thread = (Thread *)argument;
    WasmprinterBuffer text = {NULL, 0};
    pthread_barrier_wait(&start);
    for (uint32_t i = 0; i < OPTION_SETS; i++) {
        uint32_t flags = (thread->number + i) % OPTION_SETS;
        const WasmprinterBuffer *expected = &texts[flags];
        bool is_printed = print(flags, &text).status == WASMPRINTER_OK;
        thread->wrong += !(is_printed && text.len == expected->len && memcmp(text.ptr, expected->ptr, text.len) == 0);
    }
    free(text.ptr);
    return NULL;
}

/* Prints with each set of options in a single thread. */
static void print_expected(void) {
    for (uint32_t flags = 0; flags < OPTION_SETS; flags++) {
        Outcome outcome = print(flags, &texts[flags]);
        expect(outcome.status == WASMPRINTER_OK, "threads", "status of a single thread");
        expect(flags != 0 || outcome.stored.count == 2 * PAIRS + OTHER_LINES, "threads", "count of lines");
    }
}

/* Starts all threads, and waits for them. */
static void run_threads(void) {
    static Thread threads[THREADS];
    require_thread(pthread_barrier_init(&start, NULL, THREADS) == 0);
    for (unsigned i = 0; i < THREADS; i++) {
        threads[i].number = i;
        require_thread(pthread_create(&threads[i].id, NULL, print_all, &threads[i]) == 0);
    }
    for (unsigned i = 0; i < THREADS; i++) {
        require_thread(pthread_join(threads[i].id, NULL) == 0);
        expect(threads[i].wrong == 0, "threads", "text");
    }
    pthread_barrier_destroy(&start);
}

int main(void) {
    make_module();
    print_expected();
    run_threads();
    for (unsigned i = 0; i < OPTION_SETS; i++) {
        free(texts[i].ptr);
    }
    printf(LANGUAGE ": %d threads, %u differences\n", THREADS, failed);
    return failed == 0 ? 0 : 1;
}
