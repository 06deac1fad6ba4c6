/* The kernel for a board's C code: three functions on lent buffers, and names for document 01's numbers.
 * docs/BOARD.md says how to link and what the caller must see to. */
#ifndef BROMBEERTOR_H
#define BROMBEERTOR_H

#include <stddef.h>
#include <stdint.h>
#include <string.h>

#ifdef __cplusplus
extern "C" {
#endif

/* Lengths in bytes. */
enum {
    BROMBEERTOR_STATE = 4569, /* what brombeertor_state_length() gives */
    BROMBEERTOR_RECORD = 72,  /* a request, a reply */
    BROMBEERTOR_DATA = 64     /* the most that one transfer moves */
};

/* The length that a state must have. */
size_t brombeertor_state_length(void);

/* Makes a fresh state in a lent buffer: 0; of the wrong length 40, and nothing changes. */
uint32_t brombeertor_fresh(uint8_t *state, size_t state_length);

/* Does what a request asks and writes the reply. Returns the code. */
uint32_t brombeertor_call(uint8_t *state, size_t state_length, const uint8_t *request, size_t request_length,
                          uint8_t *reply, size_t reply_length);

/* Who asks: byte 1 of a request. */
enum { BROMBEERTOR_BOARD = 0, BROMBEERTOR_RUNNING_PROCESS = 1 };

/* The calls: byte 0 of a request. Behind each who may ask (P process, B board, E either) and the fields that it uses. */
enum {
    BROMBEERTOR_TICK = 1,                /* B */
    BROMBEERTOR_CREATE_PROCESS = 2,      /* E, L priority */
    BROMBEERTOR_DELETE_MYSELF = 3,       /* P */
    BROMBEERTOR_SUSPEND = 4,             /* P, N process */
    BROMBEERTOR_RESUME = 5,              /* E, N process */
    BROMBEERTOR_CHANGE_PRIORITY = 6,     /* P, N process, L priority */
    BROMBEERTOR_SCHEDULE = 7,            /* P */
    BROMBEERTOR_PROCESS_STATE = 8,       /* E, N process */
    BROMBEERTOR_SLEEP = 9,               /* P, M milliseconds */
    BROMBEERTOR_CREATE_STRUCTURE = 10,   /* E, L kind, M start value or size */
    BROMBEERTOR_DELETE_STRUCTURE = 11,   /* E, N structure */
    BROMBEERTOR_STRUCTURE_VALUE = 12,    /* E, N structure */
    BROMBEERTOR_SIGNAL = 13,             /* E, N semaphore */
    BROMBEERTOR_CONDITIONAL_SIGNAL = 14, /* E, N semaphore */
    BROMBEERTOR_SIGNAL_ALL = 15,         /* E, N semaphore */
    BROMBEERTOR_WAIT = 16,               /* P, N semaphore */
    BROMBEERTOR_CONDITIONAL_WAIT = 17,   /* P, N semaphore */
    BROMBEERTOR_PUT = 18,                /* P, N ring, L length, data */
    BROMBEERTOR_CONDITIONAL_PUT = 19,    /* E, N ring, L length, data */
    BROMBEERTOR_GET = 20,                /* P, N ring, L length */
    BROMBEERTOR_CONDITIONAL_GET = 21,    /* P, N ring, L length */
    BROMBEERTOR_RESET_RING = 22,         /* E, N ring */
    BROMBEERTOR_COLLECT = 23             /* P */
};

/* The kinds of structure. */
enum { BROMBEERTOR_BINARY = 1, BROMBEERTOR_COUNTING = 2, BROMBEERTOR_RING = 3 };

/* The places: M of process state's reply. One that waits or sleeps and is suspended has BROMBEERTOR_SUSPENDED more. */
enum {
    BROMBEERTOR_RUNNING = 1,
    BROMBEERTOR_READY = 2,
    BROMBEERTOR_PARKED = 3,
    BROMBEERTOR_IN_LINE = 4,
    BROMBEERTOR_GETTING = 5,
    BROMBEERTOR_PUTTING = 6,
    BROMBEERTOR_ASLEEP = 7,
    BROMBEERTOR_SUSPENDED = 16
};

/* The codes: what a call returns, and byte 0 of its reply. */
enum {
    BROMBEERTOR_DONE = 0,
    BROMBEERTOR_NO = 1,    /* a conditional call not performed, or nothing to collect */
    BROMBEERTOR_WAITS = 2, /* the caller now waits or sleeps */
    BROMBEERTOR_LENGTH_WRONG = 39,
    BROMBEERTOR_NOT_SOUND = 40,
    BROMBEERTOR_UNKNOWN_CALL = 41,
    BROMBEERTOR_WRONG_CALLER = 42,
    BROMBEERTOR_BAD_FIELD = 43,
    BROMBEERTOR_DEAD_STRUCTURE = 44,
    BROMBEERTOR_WRONG_KIND = 45,
    BROMBEERTOR_DEAD_PROCESS = 46,
    BROMBEERTOR_WRONG_SUSPENSION = 47,
    BROMBEERTOR_UNCOLLECTED = 48,
    BROMBEERTOR_TOO_LONG = 49,
    BROMBEERTOR_SIGNALS_FULL = 50,
    BROMBEERTOR_DELETES_IN_USE = 51,
    BROMBEERTOR_PROCESSES_FULL = 52,
    BROMBEERTOR_STRUCTURES_FULL = 53
};

/* Fills a request that brings no bytes. Fields that the call does not use are to be 0. */
static inline void brombeertor_request(uint8_t request[BROMBEERTOR_RECORD], uint8_t call, uint8_t caller, uint8_t n,
                                       uint8_t l, uint32_t m)
{
    memset(request, 0, BROMBEERTOR_RECORD);
    request[0] = call;
    request[1] = caller;
    request[2] = n;
    request[3] = l;
    for (int i = 0; i < 4; i++)
        request[4 + i] = (uint8_t)(m >> (8 * i));
}

/* Fills a put or conditional put of so many bytes, at most BROMBEERTOR_DATA. */
static inline void brombeertor_request_put(uint8_t request[BROMBEERTOR_RECORD], uint8_t call, uint8_t caller,
                                           uint8_t ring, const uint8_t *bytes, uint8_t length)
{
    brombeertor_request(request, call, caller, ring, length, 0);
    memcpy(request + 8, bytes, length <= BROMBEERTOR_DATA ? length : BROMBEERTOR_DATA);
}

/* The code of a reply. */
static inline uint8_t brombeertor_code(const uint8_t reply[BROMBEERTOR_RECORD])
{
    return reply[0];
}

/* The process running afterwards, or 0. */
static inline uint8_t brombeertor_running(const uint8_t reply[BROMBEERTOR_RECORD])
{
    return reply[1];
}

/* N: the number created, the structure waited at, the processes in the lines or released. */
static inline uint8_t brombeertor_n(const uint8_t reply[BROMBEERTOR_RECORD])
{
    return reply[2];
}

/* L: a priority, a kind, or how many bytes brombeertor_data() has. */
static inline uint8_t brombeertor_l(const uint8_t reply[BROMBEERTOR_RECORD])
{
    return reply[3];
}

/* M: a place code, a value, or the bytes held. */
static inline uint32_t brombeertor_m(const uint8_t reply[BROMBEERTOR_RECORD])
{
    uint32_t m = 0;
    for (int i = 0; i < 4; i++)
        m |= (uint32_t)reply[4 + i] << (8 * i);
    return m;
}

/* The bytes that were got or collected. */
static inline const uint8_t *brombeertor_data(const uint8_t reply[BROMBEERTOR_RECORD])
{
    return reply + 8;
}

#ifdef __cplusplus
}
#endif

#endif
