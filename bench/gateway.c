// A customer's gateway for trying `issuer serve`: it listens on PORT of this machine and answers each message on its own connection,
// MILLIS milliseconds after it came. It funds a token once, and answers one that it knows as it did at first.
//
// How it treats a message is said by the merchant's name in it (`mid`), or in a notice by the purchase's (`txn`): one that begins with a
// word of `starts` is treated so, and any other is funded, or acknowledged.
//
// For each message a line is written to standard output, by one write: what was done with it, and its text.
#define _GNU_SOURCE
#include <arpa/inet.h>
#include <errno.h>
#include <fcntl.h>
#include <signal.h>
#include <stdio.h>
#include <stdlib.h>
#include <string.h>
#include <netinet/tcp.h>
#include <sys/epoll.h>
#include <sys/socket.h>
#include <time.h>
#include <unistd.h>

enum { MESSAGE = 4096, EVENTS = 256, MOST = 1 << 16, A_WHILE = 3000 };

// A connection: what came on it, and what goes out from which moment on, so many bytes a millisecond.
struct peer {
    int socket, is_heard;
    size_t got, length, sent, step;
    long long due;
    char message[MESSAGE + 1], answer[MESSAGE];
};

enum manner { WELL, BYTES, SLOW, PART, REFUSES, FAILS, GARBLED, EARLY, SILENT, MANNERS };
static const char *const starts[MANNERS] = {"", "bytes", "slow", "part", "refuses", "fails", "garbled", "early", "silent"};
static const char *const done[MANNERS] = {NULL, NULL, NULL, NULL, "refused", "failed", "garbled", "cut", "left"};

// What is funded of a request whose merchant's name begins with "part", whatever is asked.
static const char *const a_part = "0.40";

static struct peer *peers[MOST];
static int most, waiting;
static long long delay;

// The tokens that were funded, by their calls' numbers.
static char (*funded)[64];
static size_t calls;

static void fail(const char *what)
{
    perror(what);
    exit(1);
}

static void *given(void *memory)
{
    if (memory == NULL)
        fail("memory");
    return memory;
}

static long long now(void)
{
    struct timespec time;
    clock_gettime(CLOCK_MONOTONIC, &time);
    return time.tv_sec * 1000LL + time.tv_nsec / 1000000;
}

// The member's value in the text, up to a quotation mark, a comma or a brace, or an empty text.
static const char *member(const char *text, const char *name, char value[64])
{
    char start[32];
    snprintf(start, sizeof start, "\"%s\":", name);
    const char *at = strstr(text, start);
    value[0] = 0;
    if (at != NULL && sscanf(at + strlen(start) + (at[strlen(start)] == '"'), "%63[^\",}]", value) != 1)
        value[0] = 0;
    return value;
}

static void say(const char *what, const char *text)
{
    char line[MESSAGE + 64];
    int length = snprintf(line, sizeof line, "%s %s\n", what, text);
    if (write(1, line, length) != length)
        fail("output");
}

static void answer(struct peer *peer, int status, const char *body)
{
    const char *form = "HTTP/1.1 %d Answer\r\nContent-Length: %zu\r\n\r\n%s";
    peer->length = snprintf(peer->answer, sizeof peer->answer, form, status, strlen(body), body);
}

// Funds the request's token if it is new, and notes it.
static const char *fund(const char *text)
{
    char token[64], number[64];
    size_t call = strtoul(member(text, "number", number), NULL, 10);
    if (call >= calls) {
        funded = given(realloc(funded, (2 * call + 1) * sizeof *funded));
        memset(funded + calls, 0, (2 * call + 1 - calls) * sizeof *funded);
        calls = 2 * call + 1;
    }
    if (strcmp(funded[call], member(text, "token", token)) == 0)
        return "again";
    if (funded[call][0] != 0)
        fail("two tokens of one number");
    strcpy(funded[call], token);
    return "funded";
}

static enum manner manner_of(const char *text)
{
    char name[64];
    int manner = MANNERS - 1;
    if (*member(text, "mid", name) == 0)
        member(text, "txn", name);
    while (strncmp(name, starts[manner], strlen(starts[manner])) != 0)
        manner--;
    return manner;
}

// Funds a request, or acknowledges a notice.
static void agree(struct peer *peer, enum manner manner, const char *text)
{
    char number[64], token[64], asked[64], body[256];
    const char *amount = manner == PART ? a_part : member(text, "amount", asked);
    snprintf(body, sizeof body, "{\"token\":\"%s\",\"amount\":\"%s\"}", member(text, "token", token), amount);
    answer(peer, 200, body);
    say(*member(text, "number", number) != 0 ? fund(text) : "acked", text);
}

// Answers a whole message, whose text this is.
static void hear(struct peer *peer, const char *text)
{
    enum manner manner = manner_of(text);
    peer->is_heard = 1;
    peer->due = now() + delay + (manner == SLOW ? A_WHILE : 0);
    peer->step = manner == BYTES ? 1 : MESSAGE;
    if (done[manner] == NULL)
        agree(peer, manner, text);
    else
        say(done[manner], text);
    if (manner == REFUSES || manner == FAILS || manner == EARLY)
        answer(peer, manner == REFUSES ? 402 : 500, "");
    if (manner == EARLY)
        peer->length = 12;
    if (manner == GARBLED)
        peer->length = sprintf(peer->answer, "\001 nothing that a head begins with\r\n\r\n");
    waiting += peer->length > 0;
}

static void leave(struct peer *peer)
{
    waiting -= peer->sent < peer->length;
    peers[peer->socket] = NULL;
    close(peer->socket);
    free(peer);
}

// Takes what came; a message that is whole now is heard.
static void take(struct peer *peer)
{
    ssize_t count = read(peer->socket, peer->message + peer->got, MESSAGE - peer->got);
    if (count < 0 && (errno == EAGAIN || errno == EINTR))
        return;
    if (count <= 0) {
        leave(peer);
        return;
    }
    peer->got += count;
    peer->message[peer->got] = 0;
    char *head_end = strstr(peer->message, "\r\n\r\n"), *length = strstr(peer->message, "Content-Length: ");
    if (!peer->is_heard && head_end != NULL && length != NULL && strlen(head_end + 4) >= strtoul(length + 16, NULL, 10))
        hear(peer, head_end + 4);
}

// Sends what is due, and ends a connection whose answer is out.
static void send_due(struct peer *peer, long long time)
{
    if (peer->sent >= peer->length || peer->due > time)
        return;
    size_t count = peer->length - peer->sent < peer->step ? peer->length - peer->sent : peer->step;
    ssize_t sent = send(peer->socket, peer->answer + peer->sent, count, MSG_NOSIGNAL);
    if (sent < 0 && errno != EAGAIN) {
        leave(peer);
        return;
    }
    peer->sent += sent < 0 ? 0 : sent;
    peer->due = time + 1;
    if (peer->sent == peer->length) {
        waiting--;
        leave(peer);
    }
}

static void welcome(int listener, int poll)
{
    int yes = 1;
    for (int socket; (socket = accept4(listener, NULL, NULL, SOCK_NONBLOCK)) >= 0;) {
        struct epoll_event event = {.events = EPOLLIN, .data.fd = socket};
        if (socket >= MOST || epoll_ctl(poll, EPOLL_CTL_ADD, socket, &event) != 0)
            fail("too many connections");
        setsockopt(socket, IPPROTO_TCP, TCP_NODELAY, &yes, sizeof yes);
        peers[socket] = given(calloc(1, sizeof **peers));
        peers[socket]->socket = socket;
        most = socket > most ? socket : most;
    }
}

int main(int count, char **words)
{
    if (count != 2 && count != 3)
        return 2;
    delay = count == 3 ? atoll(words[2]) : 0;
    signal(SIGPIPE, SIG_IGN);
    int listener = socket(AF_INET, SOCK_STREAM | SOCK_NONBLOCK, 0), poll = epoll_create1(0), yes = 1;
    struct sockaddr_in place = {.sin_family = AF_INET, .sin_port = htons(atoi(words[1])), .sin_addr.s_addr = htonl(INADDR_LOOPBACK)};
    struct epoll_event event = {.events = EPOLLIN, .data.fd = listener}, events[EVENTS];
    setsockopt(listener, SOL_SOCKET, SO_REUSEADDR, &yes, sizeof yes);
    if (bind(listener, (struct sockaddr *)&place, sizeof place) != 0 || listen(listener, 4096) != 0)
        fail("listen");
    epoll_ctl(poll, EPOLL_CTL_ADD, listener, &event);
    for (;;) {
        int came = epoll_wait(poll, events, EVENTS, waiting > 0 ? 1 : -1);
        for (int i = 0; i < came; i++) {
            if (events[i].data.fd == listener)
                welcome(listener, poll);
            else if (peers[events[i].data.fd] != NULL)
                take(peers[events[i].data.fd]);
        }
        long long time = now();
        for (int socket = 0; waiting > 0 && socket <= most; socket++)
            if (peers[socket] != NULL)
                send_due(peers[socket], time);
    }
}
