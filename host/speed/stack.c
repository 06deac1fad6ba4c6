/* How much stack one call takes: the stack below the caller is painted, the call runs, and the lowest byte touched is
 * looked up. The figures count from the caller's frame down. */
#include "../c/brombeertor.h"

#include <pthread.h>
#include <stdio.h>
#include <stdlib.h>

enum { STACK = 1 << 20, PAINT = 0xA5, NEAR = 512, WAITING = 31 };

static uint8_t state[BROMBEERTOR_STATE], request[BROMBEERTOR_RECORD], reply[BROMBEERTOR_RECORD];
static uint8_t *stack;

/* Asks what the request says. */
static uint32_t call(void)
{
    return brombeertor_call(state, sizeof state, request, sizeof request, reply, sizeof reply);
}

/* Ends where the code is another than it has to be. */
static void must(uint32_t code, uint32_t expected)
{
    if (code == expected)
        return;
    fprintf(stderr, "code %u where %u was expected\n", (unsigned)code, (unsigned)expected);
    exit(1);
}

/* Paints what lies below this frame but for its next few bytes, calls, and prints how deep the call went. */
__attribute__((noinline)) static void measure(const char *name, uint32_t expected)
{
    volatile uint8_t *here = __builtin_frame_address(0);
    for (volatile uint8_t *byte = stack; byte < here - NEAR; byte++)
        *byte = PAINT;
    uint32_t code = call();
    volatile uint8_t *lowest = stack;
    while (lowest < here - NEAR && *lowest == PAINT)
        lowest++;
    must(code, expected);
    if (lowest == stack || lowest >= here - NEAR) {
        fprintf(stderr, "%s: the paint does not show how deep it went\n", name);
        exit(1);
    }
    printf("| %s | %zu |\n", name, (size_t)(here - lowest));
}

/* A request without bytes. */
static uint32_t ask(uint8_t what, uint8_t caller, uint8_t n, uint8_t l, uint32_t m)
{
    brombeertor_request(request, what, caller, n, l, m);
    return call();
}

/* A request that brings bytes. */
static uint32_t ask_put(uint8_t what, uint8_t caller, uint8_t n, uint8_t length)
{
    static const uint8_t bytes[BROMBEERTOR_DATA] = {7};
    brombeertor_request_put(request, what, caller, n, bytes, length);
    return call();
}

/* 32 processes of falling priority, 8 rings of 256 that hold 64 bytes each, 16 counting semaphores at 0. */
static void fill(void)
{
    must(brombeertor_fresh(state, sizeof state), BROMBEERTOR_DONE);
    for (uint8_t i = 0; i < 32; i++)
        must(ask(BROMBEERTOR_CREATE_PROCESS, BROMBEERTOR_BOARD, 0, 200 - i, 0), BROMBEERTOR_DONE);
    for (uint8_t ring = 1; ring <= 8; ring++) {
        must(ask(BROMBEERTOR_CREATE_STRUCTURE, BROMBEERTOR_BOARD, 0, BROMBEERTOR_RING, 256), BROMBEERTOR_DONE);
        must(ask_put(BROMBEERTOR_CONDITIONAL_PUT, BROMBEERTOR_BOARD, ring, 64), BROMBEERTOR_DONE);
    }
    for (int i = 0; i < 16; i++)
        must(ask(BROMBEERTOR_CREATE_STRUCTURE, BROMBEERTOR_BOARD, 0, BROMBEERTOR_COUNTING, 0), BROMBEERTOR_DONE);
}

/* The running process waits with a get or a put at ring 1, then the next, so many times. */
static void leave(uint8_t what, uint8_t length, int times)
{
    for (int i = 0; i < times; i++) {
        if (what == BROMBEERTOR_PUT)
            must(ask_put(what, BROMBEERTOR_RUNNING_PROCESS, 1, length), BROMBEERTOR_WAITS);
        else
            must(ask(what, BROMBEERTOR_RUNNING_PROCESS, 1, length, 0), BROMBEERTOR_WAITS);
    }
}

/* An empty ring at which 31 processes wait for a byte each; process 32 runs. */
static void getters_wait(void)
{
    fill();
    must(ask(BROMBEERTOR_RESET_RING, BROMBEERTOR_BOARD, 1, 0, 0), BROMBEERTOR_DONE);
    leave(BROMBEERTOR_GET, 1, WAITING);
}

/* Document 01's standoff: size 8, held 4, a get of 6 and a put of 5; behind them 14 gets and 15 puts of 1. */
static void standoff(void)
{
    fill();
    must(ask(BROMBEERTOR_DELETE_STRUCTURE, BROMBEERTOR_BOARD, 1, 0, 0), BROMBEERTOR_DONE);
    must(ask(BROMBEERTOR_CREATE_STRUCTURE, BROMBEERTOR_BOARD, 0, BROMBEERTOR_RING, 8), BROMBEERTOR_DONE);
    must(ask_put(BROMBEERTOR_CONDITIONAL_PUT, BROMBEERTOR_BOARD, 1, 4), BROMBEERTOR_DONE);
    leave(BROMBEERTOR_GET, 6, 1);
    leave(BROMBEERTOR_GET, 1, 14);
    leave(BROMBEERTOR_PUT, 5, 1);
    leave(BROMBEERTOR_PUT, 1, 15);
}

/* Nobody stands in ring 1's lines. */
static void must_be_served(void)
{
    must(ask(BROMBEERTOR_STRUCTURE_VALUE, BROMBEERTOR_BOARD, 1, 0, 0), BROMBEERTOR_DONE);
    must(brombeertor_n(reply), 0);
}

/* 31 processes stand in a semaphore's line, or sleep for a millisecond. */
static void all_leave(uint8_t what, uint8_t n, uint32_t m)
{
    fill();
    for (int i = 0; i < WAITING; i++)
        must(ask(what, BROMBEERTOR_RUNNING_PROCESS, n, 0, m), BROMBEERTOR_WAITS);
}

/* The table, a call a line. */
static void *measure_all(void *unused)
{
    printf("| one call on a full panel | bytes of stack |\n|---|---|\n");
    fill();
    brombeertor_request(request, BROMBEERTOR_SIGNAL, BROMBEERTOR_BOARD, 0, 0, 0);
    measure("refused", BROMBEERTOR_DEAD_STRUCTURE);
    brombeertor_request(request, BROMBEERTOR_SIGNAL, BROMBEERTOR_BOARD, 9, 0, 0);
    measure("signal", BROMBEERTOR_DONE);
    brombeertor_request(request, BROMBEERTOR_TICK, BROMBEERTOR_BOARD, 0, 0, 0);
    measure("tick", BROMBEERTOR_DONE);
    brombeertor_request(request, BROMBEERTOR_GET, BROMBEERTOR_RUNNING_PROCESS, 1, 64, 0);
    measure("get of 64", BROMBEERTOR_DONE);
    must(ask_put(BROMBEERTOR_CONDITIONAL_PUT, BROMBEERTOR_BOARD, 1, 64), BROMBEERTOR_DONE);
    must(ask(BROMBEERTOR_RESET_RING, BROMBEERTOR_BOARD, 1, 0, 0), BROMBEERTOR_DONE);
    measure("reset ring", BROMBEERTOR_DONE);
    all_leave(BROMBEERTOR_WAIT, 9, 0);
    brombeertor_request(request, BROMBEERTOR_SIGNAL_ALL, BROMBEERTOR_BOARD, 9, 0, 0);
    measure("signal all that releases 31", BROMBEERTOR_DONE);
    must(brombeertor_n(reply), WAITING);
    all_leave(BROMBEERTOR_SLEEP, 0, 1);
    brombeertor_request(request, BROMBEERTOR_TICK, BROMBEERTOR_BOARD, 0, 0, 0);
    measure("tick that wakes 31", BROMBEERTOR_DONE);
    standoff();
    brombeertor_request(request, BROMBEERTOR_RESET_RING, BROMBEERTOR_BOARD, 1, 0, 0);
    measure("reset ring that serves 31, getters and putters in turn", BROMBEERTOR_DONE);
    must_be_served();
    getters_wait();
    static const uint8_t bytes[WAITING] = {7};
    brombeertor_request_put(request, BROMBEERTOR_PUT, BROMBEERTOR_RUNNING_PROCESS, 1, bytes, WAITING);
    measure("put that serves 31 getters", BROMBEERTOR_DONE);
    must_be_served();
    return unused;
}

int main(void)
{
    pthread_attr_t attributes;
    pthread_t thread;
    stack = aligned_alloc(4096, STACK);
    pthread_attr_init(&attributes);
    pthread_attr_setstack(&attributes, stack, STACK);
    if (!stack || pthread_create(&thread, &attributes, measure_all, NULL) != 0)
        return 1;
    pthread_join(thread, NULL);
    return 0;
}
