/* The smallest board: makes a state, plays document 01's listing and prints it. */
#include "brombeertor.h"

#include <stdio.h>

static uint8_t state[BROMBEERTOR_STATE];

/* One request: prints call, code, running, N, L and M of the reply. */
static void ask(uint8_t call, uint8_t caller, uint8_t n, uint8_t l, uint32_t m)
{
    uint8_t request[BROMBEERTOR_RECORD];
    uint8_t reply[BROMBEERTOR_RECORD];
    brombeertor_request(request, call, caller, n, l, m);
    uint32_t code = brombeertor_call(state, sizeof state, request, sizeof request, reply, sizeof reply);
    printf("%u %u %u %u %u %u\n", (unsigned)call, (unsigned)code, (unsigned)brombeertor_running(reply),
           (unsigned)brombeertor_n(reply), (unsigned)brombeertor_l(reply), (unsigned)brombeertor_m(reply));
}

int main(void)
{
    if (brombeertor_fresh(state, sizeof state) != BROMBEERTOR_DONE)
        return 1;
    ask(BROMBEERTOR_CREATE_PROCESS, BROMBEERTOR_BOARD, 0, 10, 0);
    ask(BROMBEERTOR_CREATE_STRUCTURE, BROMBEERTOR_BOARD, 0, BROMBEERTOR_COUNTING, 0);
    ask(BROMBEERTOR_CREATE_PROCESS, BROMBEERTOR_BOARD, 0, 5, 0);
    ask(BROMBEERTOR_WAIT, BROMBEERTOR_RUNNING_PROCESS, 1, 0, 0);
    ask(BROMBEERTOR_SIGNAL, BROMBEERTOR_RUNNING_PROCESS, 1, 0, 0);
    ask(BROMBEERTOR_SIGNAL, BROMBEERTOR_BOARD, 1, 0, 0);
    ask(BROMBEERTOR_CONDITIONAL_WAIT, BROMBEERTOR_RUNNING_PROCESS, 1, 0, 0);
    ask(BROMBEERTOR_CONDITIONAL_WAIT, BROMBEERTOR_RUNNING_PROCESS, 1, 0, 0);
    ask(BROMBEERTOR_CONDITIONAL_SIGNAL, BROMBEERTOR_BOARD, 1, 0, 0);
    return 0;
}
