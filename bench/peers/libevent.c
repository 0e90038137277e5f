// The rows over libevent: events of eventfds, timers, and events of sockets.
#include "row.h"
#include <event2/event.h>
#include <event2/event_struct.h>
#include <sys/eventfd.h>

static struct event_base *base;

// The callback of timers and sockets.
static void ready(evutil_socket_t descriptor, short what, void *argument) {
    (void)descriptor, (void)what, (void)argument;
    calls++;
}

static void rung(evutil_socket_t descriptor, short what, void *argument) {
    (void)what, (void)argument;
    uint64_t rings;
    if (read(descriptor, &rings, sizeof rings) != sizeof rings)
        fail("reading a ring");
    calls++;
}

static void dispatch(void) {
    if (event_base_loop(base, EVLOOP_ONCE | EVLOOP_NONBLOCK) < 0)
        fail("dispatching");
}

static uint64_t dispatches(uint32_t count) {
    uint64_t began = now();
    for (uint32_t i = 0; i < count; i++)
        dispatch();
    return now() - began;
}

// Watches a descriptor: the callback is called in each dispatch that finds it readable.
static void watch(struct event *event, int descriptor, event_callback_fn callback) {
    if (descriptor < 0 || event_assign(event, base, descriptor, EV_READ | EV_PERSIST, callback, NULL) != 0 ||
        event_add(event, NULL) != 0)
        fail("watching a descriptor");
}

static uint64_t ring_and_dispatch(uint32_t count, uint32_t size) {
    struct event *events = many(size, sizeof *events);
    for (uint32_t i = 0; i < size; i++)
        watch(&events[i], eventfd(0, EFD_NONBLOCK), rung);
    const uint64_t ring = 1;
    uint64_t began = now();
    for (uint32_t i = 0, turn = 0; i < count; i++, turn = turn + 1 < size ? turn + 1 : 0) {
        if (write(event_get_fd(&events[turn]), &ring, sizeof ring) != sizeof ring)
            fail("ringing");
        dispatch();
    }
    return now() - began;
}

// Timers that aren't started.
static struct event *timers_of(uint32_t size) {
    struct event *timers = many(size, sizeof *timers);
    for (uint32_t i = 0; i < size; i++)
        evtimer_assign(&timers[i], base, ready, NULL);
    return timers;
}

// Starts a timer for a scattered moment, so many seconds from now on. The moments lie a microsecond apart, which is the resolution.
static void start(struct event *timer, long from, uint32_t number) {
    const struct timeval in = {from, (long)(scatter(number) / 1000)};
    if (evtimer_add(timer, &in) != 0)
        fail("starting a timer");
}

static void start_all(struct event *timers, uint32_t size, long from) {
    for (uint32_t i = 0; i < size; i++)
        start(&timers[i], from, i);
}

static uint64_t timers_fired(uint32_t count, uint32_t size) {
    struct event *timers = timers_of(size);
    uint64_t nanoseconds = 0;
    for (uint32_t round = 1; round <= count; round++) {
        uint64_t began = now();
        start_all(timers, size, 0);
        nanoseconds += now() - began;
        // Its clock goes on by some milliseconds at a time.
        pass(20 * SCATTER);
        began = now();
        while (calls < (uint64_t)round * size)
            dispatch();
        nanoseconds += now() - began;
    }
    return nanoseconds;
}

static uint64_t timers_cancelled(uint32_t count, uint32_t size) {
    start_all(timers_of(size), size, FAR);
    struct event *timer = timers_of(1);
    uint64_t began = now();
    for (uint32_t i = 0; i < count; i++) {
        start(timer, FAR, size + i);
        evtimer_del(timer);
    }
    return now() - began;
}

static uint64_t idle_dispatch(uint32_t count, uint32_t size) {
    start_all(timers_of(size), size, FAR);
    return dispatches(count);
}

static uint64_t readable_sockets(uint32_t count, uint32_t size) {
    struct event *events = many(size, sizeof *events);
    for (uint32_t i = 0; i < size; i++)
        watch(&events[i], readable_socket(), ready);
    // The loop takes more events a wait from one dispatch to the next.
    dispatches(16);
    calls = 0;
    return dispatches(count);
}

int main(int argc, char **argv) {
    base = event_base_new();
    if (base == NULL || strcmp(event_base_get_method(base), "epoll") != 0)
        fail("no loop over epoll");
    const struct rows rows = {ring_and_dispatch, timers_fired, timers_cancelled, idle_dispatch, readable_sockets};
    return measure("libevent", &rows, argc, argv);
}
