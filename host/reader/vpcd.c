/* Debian's vpcd is a reader whose card is a program. pcscd loads it, and it waits on a TCP port for the card to connect. One byte alone
 * may be a control: 0 power off, 1 power on, 2 reset, 4 the ATR is asked for, and only that is answered. All else is a request. */
#define _GNU_SOURCE
#include "vpcd.h"

#include <arpa/inet.h>
#include <errno.h>
#include <stdio.h>
#include <string.h>
#include <sys/socket.h>
#include <time.h>
#include <unistd.h>

#include "messages.h"

#define START_SECONDS 10 /* pcscd may be starting just now */
#define PAUSE_MS 100
#define QUEUE_MS 1500 /* vpcd asks its card for the ATR every 400 ms, to see that it is there */

enum { POWER_OFF = 0, POWER_ON = 1, RESET = 2, SEND_ATR = 4 };

/* T=0 and T=1 are offered, and the historical bytes spell a name. */
static const uint8_t atr[] = {0x3B, 0x88, 0x80, 0x01, 'P', 'R', 'A', 'C', 'T', 'I', 'C', 'E', 0x12};

/* A reset takes the power away as well, for a moment. */
static size_t control(held_card *card, uint8_t which, uint8_t response[PRACTICE_ROOM])
{
    if (which == POWER_OFF || which == RESET)
        held_power_off(card);
    if (which != SEND_ATR)
        return NO_ANSWER;
    memcpy(response, atr, sizeof atr);
    return sizeof atr;
}

static int is_control(const uint8_t *message, size_t length)
{
    return length == 1 && (message[0] == POWER_OFF || message[0] == POWER_ON || message[0] == RESET || message[0] == SEND_ATR);
}

static size_t answer(held_card *card, const uint8_t *message, size_t length, uint8_t response[PRACTICE_ROOM])
{
    return is_control(message, length) ? control(card, message[0], response) : held_answer(card, message, length, response);
}

/* ---- into the reader ---- */

/* vpcd takes one card, lets one more wait in its queue, and neither takes nor refuses a third. To those that wait it says nothing, so
 * they have to tell by its silence. */
static int wait_turn(int reader, int (*within)(int, int), const char *path, int *told)
{
    if (within(reader, QUEUE_MS) || has_ended())
        return !has_ended();
    if (!*told)
        fprintf(stderr, "reader: %s waits: another card seems to be in the reader\n", path);
    *told = 1;
    return within(reader, FOR_EVER);
}

static int is_connected(int reader)
{
    int wrong = 0;
    socklen_t length = sizeof wrong;
    return getsockopt(reader, SOL_SOCKET, SO_ERROR, &wrong, &length) == 0 && wrong == 0;
}

/* The connection, or -1 where nothing listens. */
static int connect_once(uint16_t port, const char *path, int *told)
{
    const struct sockaddr_in place = {.sin_family = AF_INET, .sin_port = htons(port), .sin_addr.s_addr = htonl(INADDR_LOOPBACK)};
    int reader = socket(AF_INET, SOCK_STREAM | SOCK_CLOEXEC | SOCK_NONBLOCK, 0);
    if (reader < 0)
        return -1;
    if (connect(reader, (const struct sockaddr *)&place, sizeof place) == 0 ||
        (errno == EINPROGRESS && wait_turn(reader, writable_within, path, told) && is_connected(reader)))
        return reader;
    close(reader);
    return -1;
}

static int connect_in_time(uint16_t port, const char *path, int *told)
{
    int reader = connect_once(port, path, told);
    if (reader < 0 && !has_ended())
        fprintf(stderr, "reader: nothing listens on 127.0.0.1 port %u: waiting up to %d seconds for pcscd\n", port, START_SECONDS);
    for (int tries = 0; reader < 0 && !has_ended() && tries < START_SECONDS * 1000 / PAUSE_MS; tries++) {
        readable_within(-1, PAUSE_MS);
        reader = connect_once(port, path, told);
    }
    return reader;
}

/* Whether vpcd has asked something: only then it takes this for its card. Where it has ended instead, there is nothing to read. */
static int is_asked(int reader, const char *path, int *told)
{
    uint8_t first;
    return wait_turn(reader, readable_within, path, told) && recv(reader, &first, sizeof first, MSG_PEEK) > 0;
}

complaint vpcd_serve(held_card *card, uint16_t port)
{
    int told = 0, reader = connect_in_time(port, card->path, &told);
    if (reader < 0)
        return has_ended() ? NULL : complain("no reader on 127.0.0.1 port %u: is pcscd running, with vsmartcard-vpcd?", port);
    int is_in = is_asked(reader, card->path, &told);
    if (is_in)
        printf("%s is in the reader\n", card->path);
    fflush(stdout);
    serve(reader, -1, card, answer);
    if (is_in)
        held_power_off(card);
    if (!has_ended())
        puts("the reader is gone");
    return NULL;
}
