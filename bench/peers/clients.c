// Clients of an echo server, in one thread: each sends a line, waits until it came back, and sends the next. Prints how many lines came back
// within so many seconds, and how many whole microseconds they took, as a line of JSON. With a pause, each waits a while before
// the next line, up to so many microseconds, whatever the time is then: so what it sends comes at any moment of the server's wait.
#include "program.h"
#include <arpa/inet.h>
#include <errno.h>
#include <netinet/in.h>
#include <netinet/tcp.h>
#include <string.h>
#include <sys/epoll.h>
#include <sys/resource.h>
#include <sys/socket.h>
#include <unistd.h>

#define SECOND UINT64_C(1000000000)
#define WARM_UP (SECOND / 2)

// In seconds: how long it measures at most, how long an answer may take, and how long all may take besides the measuring.
#define LONGEST 10
#define PATIENCE 5
#define BESIDES 7

// In microseconds.
#define LONGEST_PAUSE 100000

// How many bytes a line has, with the one that ends it: 15 for the client, and 16 for the line's number.
#define LINE 32
#define DIGITS 16

#define EVENTS 1024

// Answers are counted by the microseconds that they took, which are fewer: all is over before that.
#define SLOWEST (1u << 25)

struct client {
    int socket;
    uint64_t lines;
    uint64_t sent;
    size_t read;
    char line[LINE];
    char answer[LINE + 1];
};

static int poller;

// When all has to be over.
static uint64_t end;

// Whether a client sends the next line once one came back, and whether what comes back is counted.
static int is_going, is_counting;

// In nanoseconds: how long a client pauses at most.
static uint64_t longest_pause;

// How many lines are on their way.
static uint32_t away;

static uint64_t answers;

// By the microsecond: how many answers took as long.
static uint32_t latencies[SLOWEST];

static void fail_call(const char *what) {
    fprintf(stderr, "%s: %s\n", what, strerror(errno));
    exit(1);
}

// Writes the last so many hexadecimal digits of a value.
static void write_digits(char *place, size_t digits, uint64_t value) {
    for (; digits > 0; value >>= 4)
        place[--digits] = "0123456789abcdef"[value & 15];
}

static void say(struct client *client, uint64_t moment) {
    write_digits(client->line + LINE - 1 - DIGITS, DIGITS, ++client->lines);
    client->read = 0;
    client->sent = moment;
    away++;
    ssize_t written = send(client->socket, client->line, LINE, MSG_DONTWAIT | MSG_NOSIGNAL);
    if (written < 0)
        fail_call("sending a line");
    if (written < LINE)
        fail("a line wasn't taken whole, though the one before it came back");
}

static void count_answer(uint64_t nanoseconds) {
    uint64_t microseconds = nanoseconds / 1000;
    latencies[microseconds < SLOWEST ? microseconds : SLOWEST - 1]++;
    answers++;
}

// Waits, without sleeping, for a time up to the longest pause, by the same numbers in each run (xorshift).
static void rest(void) {
    static uint64_t state = 88172645463325252;
    state ^= state << 13;
    state ^= state >> 7;
    state ^= state << 17;
    uint64_t began = now(), pause = state % longest_pause;
    while (now() - began < pause)
        ;
}

static void hear(struct client *client) {
    ssize_t got = recv(client->socket, client->answer + client->read, sizeof client->answer - client->read, MSG_DONTWAIT);
    if (got < 0 && (errno == EAGAIN || errno == EINTR))
        return;
    if (got < 0)
        fail_call("reading an answer");
    if (got == 0)
        fail("the server ended a connection");
    client->read += (size_t)got;
    if (client->read < LINE)
        return;
    if (client->read > LINE || memcmp(client->answer, client->line, LINE) != 0)
        fail("an answer isn't the line that was sent");
    uint64_t moment = now();
    away--;
    if (is_counting)
        count_answer(moment - client->sent);
    if (!is_going)
        return;
    if (longest_pause == 0) {
        say(client, moment);
        return;
    }
    rest();
    say(client, now());
}

// Waits for answers, hears those that came, and answers what time it is then.
static uint64_t turn(void) {
    static struct epoll_event events[EVENTS];
    int ready = epoll_wait(poller, events, EVENTS, PATIENCE * 1000);
    if (ready < 0 && errno != EINTR)
        fail_call("waiting for answers");
    if (ready == 0)
        fail("no answer came for too long");
    for (int i = 0; i < ready; i++)
        hear(events[i].data.ptr);
    uint64_t moment = now();
    if (moment > end)
        fail("it all took too long");
    return moment;
}

// Answers how many nanoseconds it took.
static uint64_t go_on_for(uint64_t nanoseconds) {
    uint64_t began = now(), moment = began;
    while (moment - began < nanoseconds)
        moment = turn();
    return moment - began;
}

// Waits until each line that is away came back.
static void come_to_rest(void) {
    uint64_t began = now();
    is_going = 0;
    while (away > 0)
        if (turn() - began > PATIENCE * SECOND)
            fail("a client got no answer for too long");
}

// Connects, and has a first line come back, so that the server has let this client in before the next one comes.
static void come_in(struct client *client, uint32_t place, const struct sockaddr_in *address) {
    const struct timeval patience = {.tv_sec = PATIENCE};
    const int yes = 1;
    client->socket = socket(AF_INET, SOCK_STREAM | SOCK_CLOEXEC, 0);
    if (client->socket < 0)
        fail_call("making a socket");
    if (setsockopt(client->socket, SOL_SOCKET, SO_SNDTIMEO, &patience, sizeof patience) != 0 ||
        setsockopt(client->socket, IPPROTO_TCP, TCP_NODELAY, &yes, sizeof yes) != 0)
        fail_call("setting up a socket");
    if (connect(client->socket, (const struct sockaddr *)address, sizeof *address) != 0)
        fail_call("connecting");
    struct epoll_event event = {.events = EPOLLIN, .data.ptr = client};
    if (epoll_ctl(poller, EPOLL_CTL_ADD, client->socket, &event) != 0)
        fail_call("watching a socket");
    write_digits(client->line, LINE - 1 - DIGITS, place);
    client->line[LINE - 1] = '\n';
    say(client, now());
    come_to_rest();
}

static void raise_limit(void) {
    struct rlimit limit;
    if (getrlimit(RLIMIT_NOFILE, &limit) != 0)
        fail_call("asking for the limit of open files");
    limit.rlim_cur = limit.rlim_max;
    if (setrlimit(RLIMIT_NOFILE, &limit) != 0)
        fail_call("raising the limit of open files");
}

// The least latency that so many of a thousand answers didn't exceed.
static uint32_t latency_of(uint64_t thousandths) {
    uint64_t wanted = (answers * thousandths + 999) / 1000;
    uint32_t latency = 0;
    for (uint64_t counted = latencies[0]; counted < wanted; counted += latencies[latency])
        latency++;
    return latency;
}

int main(int argc, char **argv) {
    if (argc != 5 && argc != 6) {
        fprintf(stderr, "usage: clients ADDRESS PORT CLIENTS SECONDS [PAUSE]\n");
        return 2;
    }
    if (strcmp(argv[1], "127.0.0.1") != 0) {
        fprintf(stderr, "\"%s\" isn't 127.0.0.1, and no other address is measured\n", argv[1]);
        return 2;
    }
    const struct sockaddr_in address = {
        .sin_family = AF_INET,
        .sin_addr.s_addr = htonl(INADDR_LOOPBACK),
        .sin_port = htons((uint16_t)number(argv[2], UINT16_MAX)),
    };
    uint32_t size = number(argv[3], UINT16_MAX), seconds = number(argv[4], LONGEST);
    longest_pause = argc == 6 ? number(argv[5], LONGEST_PAUSE) * UINT64_C(1000) : 0;
    struct client *clients = many(size, sizeof *clients);
    raise_limit();
    end = now() + (seconds + BESIDES) * SECOND;
    poller = epoll_create1(EPOLL_CLOEXEC);
    if (poller < 0)
        fail_call("making a poller");
    for (uint32_t i = 0; i < size; i++)
        come_in(&clients[i], i, &address);

    is_going = 1;
    for (uint32_t i = 0; i < size; i++)
        say(&clients[i], now());
    go_on_for(WARM_UP);
    is_counting = 1;
    uint64_t nanoseconds = go_on_for(seconds * SECOND);
    is_counting = 0;
    come_to_rest();
    if (answers == 0)
        fail("no line came back in that time");
    printf("{\"clients\":%" PRIu32 ",\"seconds\":%" PRIu32 ",\"requests\":%" PRIu64 ",\"requests_per_second\":%.0f"
           ",\"latency_50\":%" PRIu32 ",\"latency_99\":%" PRIu32 ",\"latency_99.9\":%" PRIu32 "}\n",
           size, seconds, answers, (double)answers * 1e9 / (double)nanoseconds, latency_of(500), latency_of(990), latency_of(999));
    return 0;
}
