/* The deepest stack of each ask, in bytes: it runs on a thread whose stack is painted just before, and the lowest byte that lost its
 * paint tells. Tables of 64 jobs and k 8, sound and missed. What a call that does nothing uses is taken off; passing the arguments
 * stays in. For x86-64, as the library is. */
#include "carolwindow.h"

#include <pthread.h>
#include <stdio.h>
#include <stdlib.h>

#define STACK_BYTES (64 * 1024)
#define PAINT 0xa5

static unsigned char stack[STACK_BYTES] __attribute__((aligned(4096)));

static uint32_t table[CAROLWINDOW_MOST_WORDS], other_table[CAROLWINDOW_MOST_WORDS];
static uint32_t pattern[CAROLWINDOW_MOST_JOBS], finishes[CAROLWINDOW_MOST_JOBS];
static uint8_t file[CAROLWINDOW_MOST_BYTES];
static uint64_t answer;

#define TABLE table, CAROLWINDOW_MOST_WORDS
#define PATTERN pattern, CAROLWINDOW_MOST_JOBS
#define FINISHES finishes, CAROLWINDOW_MOST_JOBS

static void nothing(void) { answer = 0; }
static void schedule(void)
{
    int job;
    for (job = 0; job < CAROLWINDOW_MOST_JOBS; job++)
        pattern[job] = job % 8 == 0;
    answer = carolwindow_schedule(TABLE, PATTERN, FINISHES);
}
static void free_slots(void) { answer = carolwindow_free_slots(TABLE, 1, 10000000); }
static void delays(void) { answer = carolwindow_delays(TABLE, 8, FINISHES); }
static void judge(void) { answer = carolwindow_judge(TABLE, 8, FINISHES, PATTERN); }
static void one_pattern(void) { answer = carolwindow_pattern(TABLE, 8, 63, PATTERN); }
static void write_file(void) { answer = carolwindow_write(TABLE, 8, file, sizeof file); }
static void read_file(void) { answer = carolwindow_read(file, sizeof file, other_table, CAROLWINDOW_MOST_WORDS); }

struct measured {
    void (*volatile ask)(void);
    size_t bytes;
};

/* Paint the stack from its far end up to where it is now, ask, and look for the lowest byte that lost its paint. */
static void *measure(void *argument)
{
    struct measured *measured = argument;
    volatile unsigned char *byte, *here;

    __asm__ volatile("mov %%rsp, %0" : "=r"(here));
    for (byte = stack; byte < here; byte++)
        *byte = PAINT;
    measured->ask();
    for (byte = stack; byte < here && *byte == PAINT; byte++)
        ;
    if (byte == stack) {
        fprintf(stderr, "more than the whole stack\n");
        exit(2);
    }
    measured->bytes = (size_t)(here - byte);
    return NULL;
}

static size_t deepest(void (*ask)(void))
{
    struct measured measured = { ask, 0 };
    pthread_attr_t attributes;
    pthread_t thread;

    ask(); /* once before, so that nothing is bound or loaded while it is measured */
    if (pthread_attr_init(&attributes) || pthread_attr_setstack(&attributes, stack, sizeof stack) ||
        pthread_create(&thread, &attributes, measure, &measured) || pthread_join(thread, NULL)) {
        fprintf(stderr, "no thread with its own stack\n");
        exit(2);
    }
    pthread_attr_destroy(&attributes);
    if (carolwindow_refusal_of(answer)) {
        fprintf(stderr, "refused %u at %llu\n", carolwindow_refusal_of(answer), (unsigned long long)carolwindow_place_of(answer));
        exit(2);
    }
    return measured.bytes;
}

/* 64 jobs in which walks go on and off, preempt each other and have every field in use. */
static void fill_table(uint32_t seed, uint32_t loose)
{
    int job;
    for (job = 0; job < CAROLWINDOW_MOST_JOBS; job++) {
        uint32_t *row = table + 4 * job;
        seed = seed * 1664525u + 1013904223u;
        row[0] = (seed >> 8) % 1200;
        row[1] = 1 + (seed >> 12) % 20;
        row[2] = row[0] + row[1] + (seed >> 16) % loose;
        row[3] = (seed >> 20) % 30;
    }
}

int main(void)
{
    static const struct {
        const char *name;
        void (*ask)(void);
    } asks[] = {
        { "schedule", schedule }, { "free_slots", free_slots }, { "delays", delays },    { "judge", judge },
        { "pattern", one_pattern }, { "write", write_file },    { "read", read_file },
    };
    size_t none = deepest(nothing), i;
    uint32_t seed;

    printf("deepest stack, 64 jobs, k 8\n");
    for (i = 0; i < sizeof asks / sizeof asks[0]; i++) {
        size_t most = 0;
        for (seed = 1; seed <= 20; seed++) {
            size_t bytes;
            fill_table(seed, seed % 2 ? 100 : 100000);
            write_file();
            bytes = deepest(asks[i].ask) - none;
            if (bytes > most)
                most = bytes;
        }
        printf("%-10s %6zu bytes\n", asks[i].name, most);
    }
    return 0;
}
