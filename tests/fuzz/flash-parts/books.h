/* Books of a run: the objects that the program got from libusb and must release, and the faults that were found. */
#ifndef FUZZ_BOOKS_H
#define FUZZ_BOOKS_H

#include <stdbool.h>
#include <stddef.h>
#include <stdint.h>

/* Result of a run, in memory that the run shares with the process that started it. */
struct outcome {
    bool is_done;           /* the program ended, and was checked */
    bool is_killed;         /* a signal was sent that ends the program, because it has no handler for it */
    bool is_fair, is_placed; /* is_placed: status 0 of a fair download, and the device has the image */
    int status;             /* exit status of the program */
    uint64_t calls, transfers;
    char fault[600];        /* text of the fault, or empty */
};

extern struct outcome *outcome;
extern bool is_traced;

/* Ends the run because the program made a mistake. */
void fault(const char *format, ...) __attribute__((noreturn, format(printf, 1, 2)));

/* Prints an event if only one run is played. */
void trace(const char *format, ...) __attribute__((format(printf, 1, 2)));

/* Memory of the simulated bus: take never returns NULL, and give frees it. Neither counts in `books`. */
void *take(size_t length);
void give(void *memory);

/* Objects that the program holds. */
struct books {
    int contexts, lists, configurations, handles, references, claims;
    int blocks; /* number of memory blocks */
};

extern struct books books;

/* Checks at the program's end that it holds no object of libusb, and no memory except the file or the buffer of an upload. */
void books_close(void);

#endif
