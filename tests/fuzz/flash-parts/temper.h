/* Probabilities of faults in a run. Each number is an argument of chance(): one event in that many, 0 for none. */
#ifndef FUZZ_TEMPER_H
#define FUZZ_TEMPER_H

#include <stdbool.h>
#include <stdint.h>

struct temper {
    bool is_fair;         /* devices follow the standard's table and libusb returns the truth, so that reports can be checked */
    uint32_t fails;       /* a call of libusb fails */
    uint32_t lost;        /* a transfer is lost, as a request or as an answer */
    uint32_t doubled;     /* the device handles a transfer twice */
    uint32_t leaves;      /* the device loses power and returns */
    uint32_t lies;        /* an answer has random contents; never in a fair run */
    uint32_t strays;      /* a board is connected, removed or changed */
    uint32_t stops;       /* a signal arrives during a call; ten times as often during a wait */
    uint32_t no_memory;   /* an allocation of the program fails */
    uint32_t files_fail;  /* a call for a file fails */
    uint32_t patience;    /* number of calls before all devices are gone or dead for good */
    bool is_terminal;     /* standard error is a terminal */
};

extern struct temper temper;

void temper_throw(void);

#endif
