// The rows over libuv: async handles, timers, and polls of sockets.
#include "row.h"
#include <uv.h>

static uv_loop_t *loop;

static void rung(uv_async_t *handle) {
    (void)handle;
    calls++;
}

static void fired(uv_timer_t *handle) {
    (void)handle;
    calls++;
}

static void ready(uv_poll_t *handle, int status, int events) {
    (void)handle, (void)events;
    if (status != 0)
        fail("a socket fails");
    calls++;
}

static uint64_t dispatches(uint32_t count) {
    uint64_t began = now();
    for (uint32_t i = 0; i < count; i++)
        uv_run(loop, UV_RUN_NOWAIT);
    return now() - began;
}

static uint64_t ring_and_dispatch(uint32_t count, uint32_t size) {
    uv_async_t *asyncs = many(size, sizeof *asyncs);
    for (uint32_t i = 0; i < size; i++)
        if (uv_async_init(loop, &asyncs[i], rung) != 0)
            fail("making an async");
    uint64_t began = now();
    for (uint32_t i = 0, turn = 0; i < count; i++, turn = turn + 1 < size ? turn + 1 : 0) {
        if (uv_async_send(&asyncs[turn]) != 0)
            fail("ringing");
        uv_run(loop, UV_RUN_NOWAIT);
    }
    return now() - began;
}

// Timers that aren't started.
static uv_timer_t *timers_of(uint32_t size) {
    uv_timer_t *timers = many(size, sizeof *timers);
    for (uint32_t i = 0; i < size; i++)
        uv_timer_init(loop, &timers[i]);
    return timers;
}

// Starts a timer for a scattered moment, so many seconds from now on. The moments lie a millisecond apart, which is the resolution.
static void start(uv_timer_t *timer, uint64_t from, uint32_t number) {
    if (uv_timer_start(timer, fired, from * 1000 + scatter(number) / 1024, 0) != 0)
        fail("starting a timer");
}

static void start_all(uv_timer_t *timers, uint32_t size, uint64_t from) {
    uv_update_time(loop);
    for (uint32_t i = 0; i < size; i++)
        start(&timers[i], from, i);
}

static uint64_t timers_fired(uint32_t count, uint32_t size) {
    uv_timer_t *timers = timers_of(size);
    uint64_t nanoseconds = 0;
    for (uint32_t round = 1; round <= count; round++) {
        uint64_t began = now();
        start_all(timers, size, 0);
        nanoseconds += now() - began;
        pass(1024 * SCATTER);
        began = now();
        while (calls < (uint64_t)round * size)
            uv_run(loop, UV_RUN_NOWAIT);
        nanoseconds += now() - began;
    }
    return nanoseconds;
}

static uint64_t timers_cancelled(uint32_t count, uint32_t size) {
    start_all(timers_of(size), size, FAR);
    uv_timer_t *timer = timers_of(1);
    uint64_t began = now();
    for (uint32_t i = 0; i < count; i++) {
        start(timer, FAR, size + i);
        uv_timer_stop(timer);
    }
    return now() - began;
}

static uint64_t idle_dispatch(uint32_t count, uint32_t size) {
    start_all(timers_of(size), size, FAR);
    return dispatches(count);
}

static uint64_t readable_sockets(uint32_t count, uint32_t size) {
    uv_poll_t *polls = many(size, sizeof *polls);
    for (uint32_t i = 0; i < size; i++)
        if (uv_poll_init(loop, &polls[i], readable_socket()) != 0 || uv_poll_start(&polls[i], UV_READABLE, ready) != 0)
            fail("watching a socket");
    // The first dispatch tells the system of the sockets.
    dispatches(1);
    calls = 0;
    return dispatches(count);
}

int main(int argc, char **argv) {
    loop = uv_default_loop();
    if (loop == NULL)
        fail("no loop");
    const struct rows rows = {ring_and_dispatch, timers_fired, timers_cancelled, idle_dispatch, readable_sockets};
    return measure("libuv", &rows, argc, argv);
}
