/* Waiting, receiving, sending: whatever the other side does, a message comes whole or the connection ends. */
#define _GNU_SOURCE
#include "messages.h"

#include <errno.h>
#include <netinet/in.h>
#include <netinet/tcp.h>
#include <poll.h>
#include <signal.h>
#include <stdio.h>
#include <string.h>
#include <sys/socket.h>
#include <time.h>
#include <unistd.h>

#define MESSAGE_ROOM 65536
#define LENGTH_BYTES 2
#define WHOLE_SECONDS 5 /* for a message that has begun to come whole, and for an answer to be taken */

/* ---- waiting ---- */

static volatile sig_atomic_t ended;
static sigset_t while_waiting;

static void end(int signal)
{
    (void)signal;
    ended = 1;
}

/* The signals are held back but while ppoll waits, so that none is missed between a look at `ended` and the wait. */
void ends_by_signal(void)
{
    const struct sigaction ending = {.sa_handler = end};
    sigset_t held;
    sigemptyset(&held);
    sigaddset(&held, SIGINT);
    sigaddset(&held, SIGTERM);
    sigprocmask(SIG_BLOCK, &held, &while_waiting);
    sigaction(SIGINT, &ending, NULL);
    sigaction(SIGTERM, &ending, NULL);
}

int has_ended(void)
{
    return ended;
}

static int ready(struct pollfd *which, nfds_t count, int milliseconds)
{
    const struct timespec limit = {milliseconds / 1000, milliseconds % 1000 * 1000000L};
    int found;
    do /* a Ctrl-Z interrupts as well, and ends nothing */
        found = ended ? 0 : ppoll(which, count, milliseconds < 0 ? NULL : &limit, &while_waiting);
    while (found < 0 && errno == EINTR);
    return found > 0;
}

int readable_within(int descriptor, int milliseconds)
{
    struct pollfd one = {.fd = descriptor, .events = POLLIN};
    return ready(&one, 1, milliseconds);
}

int writable_within(int descriptor, int milliseconds)
{
    struct pollfd one = {.fd = descriptor, .events = POLLOUT};
    return ready(&one, 1, milliseconds);
}

static int next_message(int connection, int *others)
{
    struct pollfd both[] = {{.fd = connection, .events = POLLIN}, {.fd = *others, .events = POLLIN}};
    while (ready(both, 2, FOR_EVER)) {
        if (both[0].revents)
            return 1;
        fputs("reader: another client waits: it is answered when this one has closed its connection\n", stderr);
        *others = both[1].fd = -1;
    }
    return 0;
}

/* ---- messages ---- */

static long now_ms(void)
{
    struct timespec now;
    clock_gettime(CLOCK_MONOTONIC, &now);
    return now.tv_sec * 1000L + now.tv_nsec / 1000000L;
}

/* Whether a call on the connection may be made again: it was too early, and the time is not over. */
static int again(int connection, int (*within)(int, int), long until)
{
    long left = until - now_ms();
    return errno == EINTR || ((errno == EAGAIN || errno == EWOULDBLOCK) && left > 0 && within(connection, (int)left));
}

/* How many bytes came: all of them, unless the connection ended or the time was over.
 * Without a quick acknowledgement vpcd's two small writes for each message wait for one another, some 40 ms. */
static size_t receive(int connection, uint8_t *bytes, size_t length, long until)
{
    const int on = 1;
    size_t got = 0;
    while (got < length) {
        setsockopt(connection, IPPROTO_TCP, TCP_QUICKACK, &on, sizeof on);
        ssize_t more = recv(connection, bytes + got, length - got, MSG_DONTWAIT);
        if (more == 0 || (more < 0 && !again(connection, readable_within, until)))
            break;
        got += more > 0 ? (size_t)more : 0;
    }
    return got;
}

/* A wrong length is the mistake that is made most, and from the client's side it looks like a card that does not answer. */
static int broken(const char *what, size_t announced, size_t came)
{
    if (!ended)
        fprintf(stderr, "reader: %s of %zu bytes ended after %zu; the connection is closed\n", what, announced, came);
    return 0;
}

static int receive_message(int connection, uint8_t message[MESSAGE_ROOM], size_t *length)
{
    uint8_t head[LENGTH_BYTES];
    long until = now_ms() + WHOLE_SECONDS * 1000L;
    size_t got = receive(connection, head, sizeof head, until);
    if (got < sizeof head)
        return got == 0 ? 0 : broken("the length", sizeof head, got);
    *length = (size_t)head[0] << 8 | head[1];
    got = receive(connection, message, *length, until);
    return got == *length || broken("a message", *length, got);
}

static int send_message(int connection, const uint8_t *bytes, size_t length)
{
    uint8_t message[LENGTH_BYTES + PRACTICE_ROOM] = {(uint8_t)(length >> 8), (uint8_t)length};
    long until = now_ms() + WHOLE_SECONDS * 1000L;
    memcpy(message + LENGTH_BYTES, bytes, length);
    for (size_t sent = 0; sent < LENGTH_BYTES + length;) {
        ssize_t more = send(connection, message + sent, LENGTH_BYTES + length - sent, MSG_NOSIGNAL | MSG_DONTWAIT);
        if (more < 0 && !again(connection, writable_within, until))
            return 0;
        sent += more > 0 ? (size_t)more : 0;
    }
    return 1;
}

void serve(int connection, int others, held_card *card, answering *answer)
{
    static uint8_t message[MESSAGE_ROOM], response[PRACTICE_ROOM];
    size_t length;
    while (next_message(connection, &others) && receive_message(connection, message, &length)) {
        size_t answered = answer(card, message, length, response);
        if (answered != NO_ANSWER && !send_message(connection, response, answered))
            break;
    }
    close(connection);
}
