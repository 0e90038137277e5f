// What all programs here share: how they fail, the clock, memory, and numbers among their arguments.
#ifndef PROGRAM_H
#define PROGRAM_H

#include <inttypes.h>
#include <stdint.h>
#include <stdio.h>
#include <stdlib.h>
#include <time.h>

static inline void fail(const char *what) {
    fprintf(stderr, "%s\n", what);
    exit(1);
}

static inline uint64_t now(void) {
    struct timespec moment;
    if (clock_gettime(CLOCK_MONOTONIC, &moment) != 0)
        fail("reading the clock");
    return (uint64_t)moment.tv_sec * 1000000000 + (uint64_t)moment.tv_nsec;
}

static inline void *many(uint32_t size, size_t bytes) {
    void *place = calloc(size, bytes);
    if (place == NULL)
        fail("out of memory");
    return place;
}

static inline uint32_t number(const char *word, uint32_t most) {
    char *end;
    unsigned long long value = strtoull(word, &end, 10);
    if (*word < '0' || *word > '9' || *end != '\0' || value == 0 || value > most) {
        fprintf(stderr, "\"%s\" is no whole number from 1 to %" PRIu32 "\n", word, most);
        exit(2);
    }
    return (uint32_t)value;
}

#endif
