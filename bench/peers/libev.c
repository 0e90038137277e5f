// The rows over libev: async watchers, timers, and watchers of sockets.
#include "row.h"
#include <ev.h>

static struct ev_loop *loop;

static void rung(struct ev_loop *of, ev_async *watcher, int events) {
    (void)of, (void)watcher, (void)events;
    calls++;
}

static void fired(struct ev_loop *of, ev_timer *watcher, int events) {
    (void)of, (void)watcher, (void)events;
    calls++;
}

static void ready(struct ev_loop *of, ev_io *watcher, int events) {
    (void)of, (void)watcher, (void)events;
    calls++;
}

static uint64_t dispatches(uint32_t count) {
    uint64_t began = now();
    for (uint32_t i = 0; i < count; i++)
        ev_run(loop, EVRUN_NOWAIT);
    return now() - began;
}

static uint64_t ring_and_dispatch(uint32_t count, uint32_t size) {
    ev_async *asyncs = many(size, sizeof *asyncs);
    for (uint32_t i = 0; i < size; i++) {
        ev_async_init(&asyncs[i], rung);
        ev_async_start(loop, &asyncs[i]);
    }
    uint64_t began = now();
    for (uint32_t i = 0, turn = 0; i < count; i++, turn = turn + 1 < size ? turn + 1 : 0) {
        ev_async_send(loop, &asyncs[turn]);
        ev_run(loop, EVRUN_NOWAIT);
    }
    return now() - began;
}

// Timers that aren't started.
static ev_timer *timers_of(uint32_t size) {
    ev_timer *timers = many(size, sizeof *timers);
    for (uint32_t i = 0; i < size; i++)
        ev_timer_init(&timers[i], fired, 0., 0.);
    return timers;
}

// Starts a timer for a scattered moment, so many seconds from now on.
static void start(ev_timer *timer, double from, uint32_t number) {
    ev_timer_set(timer, from + (double)scatter(number) * 1e-9, 0.);
    ev_timer_start(loop, timer);
}

static void start_all(ev_timer *timers, uint32_t size, double from) {
    ev_now_update(loop);
    for (uint32_t i = 0; i < size; i++)
        start(&timers[i], from, i);
}

static uint64_t timers_fired(uint32_t count, uint32_t size) {
    ev_timer *timers = timers_of(size);
    uint64_t nanoseconds = 0;
    for (uint32_t round = 1; round <= count; round++) {
        uint64_t began = now();
        start_all(timers, size, 0.);
        nanoseconds += now() - began;
        pass(SCATTER);
        began = now();
        while (calls < (uint64_t)round * size)
            ev_run(loop, EVRUN_NOWAIT);
        nanoseconds += now() - began;
    }
    return nanoseconds;
}

static uint64_t timers_cancelled(uint32_t count, uint32_t size) {
    start_all(timers_of(size), size, FAR);
    ev_timer *timer = timers_of(1);
    uint64_t began = now();
    for (uint32_t i = 0; i < count; i++) {
        start(timer, FAR, size + i);
        ev_timer_stop(loop, timer);
    }
    return now() - began;
}

static uint64_t idle_dispatch(uint32_t count, uint32_t size) {
    start_all(timers_of(size), size, FAR);
    return dispatches(count);
}

static uint64_t readable_sockets(uint32_t count, uint32_t size) {
    ev_io *watchers = many(size, sizeof *watchers);
    for (uint32_t i = 0; i < size; i++) {
        ev_io_init(&watchers[i], ready, readable_socket(), EV_READ);
        ev_io_start(loop, &watchers[i]);
    }
    // The loop takes more events a wait from one dispatch to the next.
    dispatches(16);
    calls = 0;
    return dispatches(count);
}

int main(int argc, char **argv) {
    loop = ev_default_loop(EVBACKEND_EPOLL);
    if (loop == NULL)
        fail("no loop over epoll");
    const struct rows rows = {ring_and_dispatch, timers_fired, timers_cancelled, idle_dispatch, readable_sockets};
    return measure("libev", &rows, argc, argv);
}
