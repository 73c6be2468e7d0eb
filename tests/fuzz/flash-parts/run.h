/* The standard streams of a run. */
#ifndef FUZZ_RUN_H
#define FUZZ_RUN_H

#include <stdbool.h>

struct streams {
    int out, err; /* output of the program; -1 if the stream is full or closed */
};

extern struct streams streams;

#endif
