/* Stack that each C call needs, in bytes: the call runs on a stack that was painted, and what it wrote over is counted.
 * The kernel is the longest, with every access volatile. */
#define _POSIX_C_SOURCE 200112L
#include "../include/lanes.h"

#include <pthread.h>
#include <stdio.h>
#include <string.h>

enum { STACK = 1 << 18, PAINT = 0xa5, RECORDS = 256, KERNEL = 16 + 12 * RECORDS, MOVES = 4096 };

static _Alignas(4096) uint8_t stack[STACK];
static uint8_t kernel[KERNEL + 1], moves[2 * MOVES], out[LANES_PAGE_MAX];
static size_t kernel_len, moves_len;
static uint64_t answer;

static void *nothing(void *unused)
{
    return unused;
}

static void *lower1(void *unused)
{
    answer = lanes_lower1(kernel, kernel_len, out, sizeof out);
    return unused;
}

static void *lower2(void *unused)
{
    answer = lanes_lower2(kernel, kernel_len, out, sizeof out);
    return unused;
}

static void *lower3(void *unused)
{
    answer = lanes_lower3(kernel, kernel_len, out, sizeof out);
    return unused;
}

static void *page(void *unused)
{
    answer = lanes_page(kernel, kernel_len, out, sizeof out);
    return unused;
}

static void *run_source(void *unused)
{
    answer = lanes_run_source(kernel, kernel_len, moves, moves_len, out, sizeof out);
    return unused;
}

static void *run_tso(void *unused)
{
    answer = lanes_run_tso(kernel, kernel_len, moves, moves_len, out, sizeof out);
    return unused;
}

static void *run_pso(void *unused)
{
    answer = lanes_run_pso(kernel, kernel_len, moves, moves_len, out, sizeof out);
    return unused;
}

/* How much of the painted stack a thread writes over. */
static size_t used(void *(*call)(void *))
{
    pthread_attr_t attributes;
    pthread_t thread;
    size_t low = 0;
    memset(stack, PAINT, sizeof stack);
    pthread_attr_init(&attributes);
    pthread_attr_setstack(&attributes, stack, sizeof stack);
    if (pthread_create(&thread, &attributes, call, NULL) != 0)
        return 0;
    pthread_join(thread, NULL);
    pthread_attr_destroy(&attributes);
    while (low < sizeof stack && stack[low] == PAINT)
        low++;
    return sizeof stack - low;
}

/* Four lanes of 64 records, LOAD and STORE of volatile locations in turn; the last of each lane ends its chain. */
static void longest(void)
{
    memset(kernel, 0, sizeof kernel);
    kernel[0] = 4;
    kernel[1] = 16;
    kernel[4] = kernel[5] = 255;
    kernel[7] = 1;
    for (int i = 0; i < RECORDS; i++) {
        uint8_t *rec = kernel + 16 + 12 * i;
        int next = i % 64 == 63 ? 0 : i + 2;
        rec[0] = i % 2 == 0 ? 4 : 3;
        rec[1] = i % 8;
        rec[2] = i % 16;
        rec[10] = next % 256;
        rec[11] = next / 256;
        if (i % 64 == 0)
            kernel[8 + 2 * (i / 64)] = (i + 1) % 256;
    }
    kernel_len = KERNEL;
}

static int measure(const char *name, void *(*call)(void *), size_t own)
{
    size_t bytes = used(call) - own;
    printf("%s %zu\n", name, bytes);
    if (LANES_NUMBER(answer) != 0 || bytes > LANES_STACK) {
        printf("%s: refused with %u, or above %zu bytes\n", name, (unsigned)LANES_NUMBER(answer), (size_t)LANES_STACK);
        return 1;
    }
    return 0;
}

int main(void)
{
    size_t own = used(nothing);
    longest();
    for (size_t i = 0; i < MOVES; i++) {
        moves[2 * i] = i % 4;
        moves[2 * i + 1] = i / 4 % 2;
    }
    moves_len = sizeof moves;
    int above = measure("lanes_lower1", lower1, own) + measure("lanes_lower2", lower2, own);
    above += measure("lanes_lower3", lower3, own) + measure("lanes_page", page, own);
    above += measure("lanes_run_source", run_source, own) + measure("lanes_run_tso", run_tso, own);
    above += measure("lanes_run_pso", run_pso, own);
    return above != 0;
}
