// A server over libuv that does what crates/line_echo does: it gives back each line once all of it was read, and drops clients that send
// longer ones than 4,096 bytes, or are silent for a minute.
#define _GNU_SOURCE
#include "program.h"
#include <signal.h>
#include <string.h>
#include <uv.h>

// In milliseconds: how long a client may be silent, and how long it takes from one look at them to the next.
#define PATIENCE 60000
#define EACH (PATIENCE / 4)

#define LONGEST_LINE 4096
#define BACKLOG 1024

struct client {
    uv_tcp_t stream;
    uv_write_t request;
    uint64_t heard;
    // What was read and isn't given back yet: `whole` bytes of lines that the system didn't take, and behind them a line that goes on.
    char *bytes;
    size_t whole, length, room;
};

static uv_loop_t *loop;
static uv_tcp_t listener;

static void check(int status, const char *what) {
    if (status >= 0)
        return;
    fprintf(stderr, "%s: %s\n", what, uv_strerror(status));
    exit(1);
}

static void release(uv_handle_t *handle) {
    struct client *client = (struct client *)handle;
    free(client->bytes);
    free(client);
}

static void drop(struct client *client) {
    if (!uv_is_closing((uv_handle_t *)client))
        uv_close((uv_handle_t *)client, release);
}

static void append(struct client *client, const char *bytes, size_t count) {
    if (client->room - client->length < count) {
        client->room = 2 * client->room + count;
        client->bytes = realloc(client->bytes, client->room);
        if (client->bytes == NULL)
            fail("out of memory");
    }
    memcpy(client->bytes + client->length, bytes, count);
    client->length += count;
}

// The first so many bytes were given back.
static void remove_front(struct client *client, size_t count) {
    client->whole -= count;
    client->length -= count;
    memmove(client->bytes, client->bytes + count, client->length);
}

static void start_reading(struct client *client);

static void written(uv_write_t *request, int status) {
    struct client *client = request->data;
    if (status < 0) {
        drop(client);
        return;
    }
    remove_front(client, client->whole);
    start_reading(client);
}

// Writes the lines at once. What the system doesn't take is written later, and the client isn't read until then.
static void give_back(struct client *client) {
    uv_stream_t *stream = (uv_stream_t *)&client->stream;
    uv_buf_t lines = uv_buf_init(client->bytes, (unsigned)client->whole);
    int count = uv_try_write(stream, &lines, 1);
    if (count < 0 && count != UV_EAGAIN) {
        drop(client);
        return;
    }
    if (count > 0)
        remove_front(client, (size_t)count);
    if (client->whole == 0)
        return;
    uv_read_stop(stream);
    lines = uv_buf_init(client->bytes, (unsigned)client->whole);
    client->request.data = client;
    if (uv_write(&client->request, stream, &lines, 1, written) != 0)
        drop(client);
}

// The place is used until the call of `got` that follows.
static void lend(uv_handle_t *handle, size_t wanted, uv_buf_t *place) {
    static char bytes[1024];
    (void)handle, (void)wanted;
    *place = uv_buf_init(bytes, sizeof bytes);
}

static void got(uv_stream_t *stream, ssize_t count, const uv_buf_t *place) {
    struct client *client = (struct client *)stream;
    if (count < 0) {
        drop(client);
        return;
    }
    if (count == 0)
        return;
    client->heard = uv_now(loop);
    const char *last = memrchr(place->base, '\n', (size_t)count);
    if (last != NULL)
        client->whole = client->length + (size_t)(last - place->base) + 1;
    append(client, place->base, (size_t)count);
    if (client->length - client->whole > LONGEST_LINE)
        drop(client);
    else if (client->whole > 0)
        give_back(client);
}

static void start_reading(struct client *client) {
    if (uv_read_start((uv_stream_t *)&client->stream, lend, got) != 0)
        drop(client);
}

static void let_in(uv_stream_t *from, int status) {
    if (status < 0)
        return;
    struct client *client = many(1, sizeof *client);
    check(uv_tcp_init(loop, &client->stream), "making a socket");
    client->heard = uv_now(loop);
    if (uv_accept(from, (uv_stream_t *)&client->stream) == 0)
        start_reading(client);
    else
        drop(client);
}

static void drop_if_silent(uv_handle_t *handle, void *nothing) {
    (void)nothing;
    if (handle->type != UV_TCP || handle == (uv_handle_t *)&listener)
        return;
    struct client *client = (struct client *)handle;
    if (uv_now(loop) - client->heard >= PATIENCE)
        drop(client);
}

static void sweep(uv_timer_t *timer) {
    (void)timer;
    uv_walk(loop, drop_if_silent, NULL);
}

int main(int argc, char **argv) {
    const char *port = argc == 2 || argc == 3 ? strchr(argv[1], ':') : NULL;
    if (port == NULL || strncmp(argv[1], "127.0.0.1:", 10) != 0) {
        fprintf(stderr, "usage: echo_libuv 127.0.0.1:PORT [MILLISECONDS]\n");
        return 2;
    }
    struct sockaddr_in address;
    uv_timer_t timer;
    // A client that is gone is told of by the write.
    signal(SIGPIPE, SIG_IGN);
    loop = uv_default_loop();
    if (loop == NULL)
        fail("no loop");
    check(uv_ip4_addr("127.0.0.1", (int)number(port + 1, UINT16_MAX), &address), "reading the address");
    check(uv_tcp_init(loop, &listener), "making the listener");
    check(uv_tcp_bind(&listener, (const struct sockaddr *)&address, 0), "binding the listener");
    check(uv_listen((uv_stream_t *)&listener, BACKLOG, let_in), "listening");
    check(uv_timer_init(loop, &timer), "making the timer");
    uint64_t each = argc == 3 ? number(argv[2], EACH) : EACH;
    check(uv_timer_start(&timer, sweep, each, each), "starting the timer");
    return uv_run(loop, UV_RUN_DEFAULT);
}
