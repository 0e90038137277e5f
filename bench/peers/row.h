// What the programs with rows share: their arguments, and the line that they print.
#ifndef ROW_H
#define ROW_H

#include "program.h"
#include <string.h>
#include <sys/socket.h>
#include <unistd.h>

// In how many seconds the timers are due that don't fire while a row runs.
#define FAR 1000000

// Within how many nanoseconds the scattered moments lie.
#define SCATTER (1u << 20)

// Runs a row COUNT times over SIZE sources, and answers what it took, in nanoseconds.
typedef uint64_t row_function(uint32_t count, uint32_t size);

struct rows {
    row_function *ring_and_dispatch;
    row_function *timers_fired;
    row_function *timers_cancelled;
    row_function *idle_dispatch;
    row_function *readable_sockets;
};

// How many callbacks were called since the row's first measured dispatch.
static uint64_t calls;

// Returns once so many nanoseconds are over.
static void pass(uint64_t nanoseconds) {
    uint64_t end = now() + nanoseconds;
    while (now() < end)
        continue;
}

// How many nanoseconds this moment lies behind the first one: they are in an order that goes to and fro.
static uint64_t scatter(uint32_t number) {
    return (uint64_t)number * 489905 % SCATTER;
}

// A socket with a byte to be read, whose peer stays open.
static int readable_socket(void) {
    int ends[2];
    if (socketpair(AF_UNIX, SOCK_STREAM | SOCK_NONBLOCK, 0, ends) != 0 || write(ends[1], "x", 1) != 1)
        fail("making a socket");
    return ends[0];
}

// Measures the row that the arguments name, and prints it as `bench/rows` does.
static int measure(const char *library, const struct rows *rows, int argc, char **argv) {
    if (argc != 4) {
        fprintf(stderr, "usage: %s ROW COUNT SIZE\n", library);
        return 2;
    }
    const struct {
        const char *name;
        row_function *run;
        int is_called, is_each;
    } kinds[] = {
        {"ring_and_dispatch", rows->ring_and_dispatch, 1, 0},
        {"timers_fired", rows->timers_fired, 1, 1},
        {"timers_cancelled", rows->timers_cancelled, 0, 0},
        {"idle_dispatch", rows->idle_dispatch, 0, 0},
        {"readable_sockets", rows->readable_sockets, 1, 1},
    };
    uint64_t count = number(argv[2], UINT32_MAX), size = number(argv[3], UINT32_MAX);
    for (size_t i = 0; i < sizeof kinds / sizeof *kinds; i++) {
        if (strcmp(argv[1], kinds[i].name) != 0)
            continue;
        uint64_t nanoseconds = kinds[i].run((uint32_t)count, (uint32_t)size);
        if (calls != (kinds[i].is_called ? count * (kinds[i].is_each ? size : 1) : 0))
            fail("another number of calls than the row has to make");
        uint64_t operations = count * (kinds[i].run == rows->timers_fired ? size : 1);
        printf("{\"row\":\"%s\",\"poller\":\"%s\",\"count\":%" PRIu64 ",\"size\":%" PRIu64 ",\"nanoseconds\":%" PRIu64
               ",\"per_operation\":%" PRIu64 "}\n",
               argv[1], library, count, size, nanoseconds, nanoseconds / operations);
        return 0;
    }
    fprintf(stderr, "no row has the name \"%s\"\n", argv[1]);
    return 2;
}

#endif
