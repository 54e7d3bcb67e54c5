// Posts purchases to `issuer serve` on PORT of this machine, FLIGHT of them at a time, each on a connection of its own, and tells how
// many were decided a second and how long they took.
//
//     load PORT FIRST COUNT FLIGHT CARD NAMES [GAP]
//
// The purchases are the events eFIRST and the COUNT - 1 after it, by CARD, in turn at merchants with these NAMES (divided by commas).
// Connections are begun GAP microseconds apart, 200 where it isn't said, and a few of them at once where some are late.
// Each response that came whole is written to standard output, by one write: its event, its status and its body. At the first
// connection that fails, as they do where the program is killed, no more are begun, and it ends with status 1 once all have ended. One
// line on standard error has how many were begun and how many were answered, the seconds, answers a second, and the milliseconds under
// which half of them stayed, 99 and 99.9 of a hundred, and all.
#define _GNU_SOURCE
#include <arpa/inet.h>
#include <errno.h>
#include <signal.h>
#include <stdio.h>
#include <stdlib.h>
#include <string.h>
#include <sys/epoll.h>
#include <sys/socket.h>
#include <time.h>
#include <unistd.h>

enum { TEXT = 1024, EVENTS = 256, MOST = 1 << 16, BURST = 8, CONNECTS = 5000 };

struct post {
    int event, length, is_sent;
    long long since;
    size_t got;
    char request[2 * TEXT], response[TEXT + 1];
};

static struct post *posts[MOST];
static struct sockaddr_in place;
static char *card, *names[64];
static int kinds, poll_set, open_posts, has_failed, gap = 200;
static long long *taken;
static int ended;

static void fail(const char *what)
{
    perror(what);
    exit(2);
}

static long long microseconds(void)
{
    struct timespec time;
    clock_gettime(CLOCK_MONOTONIC, &time);
    return time.tv_sec * 1000000LL + time.tv_nsec / 1000;
}

// A connection to the program, which may still be under way. The first one is tried until the program listens.
static int connected(void)
{
    static int is_first = 1;
    for (int tries = 0; tries < CONNECTS; tries++) {
        int peer = socket(AF_INET, SOCK_STREAM | (is_first ? 0 : SOCK_NONBLOCK), 0);
        if (peer < 0)
            fail("socket");
        if (connect(peer, (struct sockaddr *)&place, sizeof place) == 0 || errno == EINPROGRESS) {
            is_first = 0;
            return peer;
        }
        close(peer);
        if (!is_first)
            break;
        usleep(1000);
    }
    return -1;
}

static void write_request(struct post *post)
{
    char body[TEXT];
    int length = snprintf(body, sizeof body,
        "{\"type\":\"authorization\",\"token\":\"e%d\",\"card\":\"%s\","
        "\"currency\":\"USD\",\"amount\":\"1.00\",\"mcc\":\"5411\",\"mid\":\"%s\"}",
        post->event, card, names[post->event % kinds]);
    post->length = snprintf(post->request, sizeof post->request,
        "POST /events HTTP/1.1\r\nHost: localhost\r\nContent-Length: %d\r\n\r\n%s", length, body);
}

static void begin(int event)
{
    struct epoll_event wanted = {.events = EPOLLOUT};
    struct post *post = calloc(1, sizeof *post);
    if (post == NULL)
        fail("memory");
    post->event = event;
    post->since = microseconds();
    write_request(post);
    int peer = connected();
    if (peer < 0 || peer >= MOST) {
        has_failed = 1;
        close(peer);
        free(post);
        return;
    }
    wanted.data.fd = peer;
    if (epoll_ctl(poll_set, EPOLL_CTL_ADD, peer, &wanted) != 0)
        fail("epoll");
    posts[peer] = post;
    open_posts++;
}

// The body of a response that is whole, or NULL.
static const char *body_of(const char *response, int *status)
{
    const char *length = strstr(response, "Content-Length: "), *end = strstr(response, "\r\n\r\n");
    if (length == NULL || end == NULL || strlen(end + 4) != strtoul(length + 16, NULL, 10))
        return NULL;
    return sscanf(response, "HTTP/1.1 %d", status) == 1 ? end + 4 : NULL;
}

// A connection that ended: where its response is whole, it is written and timed.
static void end(int peer)
{
    struct post *post = posts[peer];
    char line[TEXT + 64];
    int status;
    const char *body = body_of(post->response, &status);
    if (body != NULL) {
        size_t count = snprintf(line, sizeof line, "e%d %d %s", post->event, status, body);
        if (line[count - 1] != '\n')
            line[count++] = '\n';
        if (write(1, line, count) != (ssize_t)count)
            fail("output");
        taken[ended++] = microseconds() - post->since;
    } else {
        has_failed = 1;
    }
    posts[peer] = NULL;
    close(peer);
    free(post);
    open_posts--;
}

static void take(int peer)
{
    struct post *post = posts[peer];
    ssize_t count = recv(peer, post->response + post->got, TEXT - post->got, MSG_DONTWAIT);
    if (count < 0 && (errno == EAGAIN || errno == EINTR))
        return;
    if (count <= 0) {
        end(peer);
        return;
    }
    post->got += count;
    post->response[post->got] = 0;
}

// Sends the request on a connection that stands now.
static void ask(int peer)
{
    struct post *post = posts[peer];
    struct epoll_event wanted = {.events = EPOLLIN, .data.fd = peer};
    if (send(peer, post->request, post->length, MSG_NOSIGNAL) != post->length) {
        end(peer);
        return;
    }
    post->is_sent = 1;
    if (epoll_ctl(poll_set, EPOLL_CTL_MOD, peer, &wanted) != 0)
        fail("epoll");
}

static int by_size(const void *left, const void *right)
{
    long long a = *(const long long *)left, b = *(const long long *)right;
    return (a > b) - (a < b);
}

// The time in milliseconds under which this part of all stayed.
static double part(double share)
{
    int at = share * ended;
    return ended == 0 ? 0 : taken[at < ended ? at : ended - 1] / 1000.0;
}

static void tell(int begun, long long span)
{
    qsort(taken, ended, sizeof *taken, by_size);
    fprintf(stderr, "%d %d %.3f %.0f ", begun, ended, span / 1e6, ended * 1e6 / span);
    fprintf(stderr, "%.2f %.2f %.2f %.2f\n", part(0.5), part(0.99), part(0.999), part(1));
}

// Begins as many as may be under way, and sees to what comes, until all have ended. It returns how many were begun.
static int run(int first, int count, int flight)
{
    struct epoll_event events[EVENTS];
    int next = first;
    long long due = microseconds();
    for (;;) {
        long long time = microseconds();
        due = due < time - BURST * gap ? time - BURST * gap : due;
        int may_begin = open_posts < flight && next < first + count && !has_failed;
        if (may_begin && due <= time) {
            begin(next++);
            due += gap;
            continue;
        }
        if (!may_begin && open_posts == 0)
            return next - first;
        int came = epoll_wait(poll_set, events, EVENTS, may_begin ? 1 : -1);
        for (int i = 0; i < came; i++) {
            if (posts[events[i].data.fd]->is_sent)
                take(events[i].data.fd);
            else
                ask(events[i].data.fd);
        }
    }
}

int main(int count, char **words)
{
    if (count != 7 && count != 8)
        return 2;
    if (count == 8)
        gap = atoi(words[7]);
    int first = atoi(words[2]), number = atoi(words[3]), flight = atoi(words[4]);
    place = (struct sockaddr_in){.sin_family = AF_INET, .sin_port = htons(atoi(words[1])), .sin_addr.s_addr = htonl(INADDR_LOOPBACK)};
    card = words[5];
    for (char *name = strtok(words[6], ","); name != NULL && kinds < 64; name = strtok(NULL, ","))
        names[kinds++] = name;
    taken = calloc(number + 1, sizeof *taken);
    poll_set = epoll_create1(0);
    if (kinds == 0 || taken == NULL || poll_set < 0)
        return 2;
    long long start = microseconds();
    int begun = run(first, number, flight);
    tell(begun, microseconds() - start);
    return has_failed;
}
