/* Every message is a request, and its answer the response. A connection is the card in a phone's field: with its end the power is off. */
#define _GNU_SOURCE
#include "tcp.h"

#include <arpa/inet.h>
#include <errno.h>
#include <stdio.h>
#include <string.h>
#include <sys/socket.h>
#include <unistd.h>

#include "messages.h"

#define WAITING 16         /* connections that the system keeps for us while one is served */
#define UNREAD_BYTES 16384 /* answers that it keeps: a client that takes none is noticed soon, and not after 100,000 taps */

/* A new reader may have the port at once, though connections of the last one are not quite forgotten. */
static int listen_on(struct sockaddr_in *place)
{
    const int on = 1, unread = UNREAD_BYTES;
    socklen_t length = sizeof *place;
    int listener = socket(AF_INET, SOCK_STREAM | SOCK_CLOEXEC | SOCK_NONBLOCK, 0);
    if (listener < 0)
        return -1;
    if (setsockopt(listener, SOL_SOCKET, SO_REUSEADDR, &on, sizeof on) == 0 &&
        setsockopt(listener, SOL_SOCKET, SO_SNDBUF, &unread, sizeof unread) == 0 &&
        bind(listener, (const struct sockaddr *)place, sizeof *place) == 0 && listen(listener, WAITING) == 0 &&
        getsockname(listener, (struct sockaddr *)place, &length) == 0)
        return listener;
    close(listener);
    return -1;
}

complaint tcp_serve(held_card *card, uint16_t port)
{
    struct sockaddr_in place = {.sin_family = AF_INET, .sin_port = htons(port), .sin_addr.s_addr = htonl(INADDR_LOOPBACK)};
    int listener = listen_on(&place);
    if (listener < 0)
        return complain("cannot listen on 127.0.0.1 port %u: %s", port, strerror(errno));
    printf("%s answers on 127.0.0.1 port %u\n", card->path, ntohs(place.sin_port));
    if (fflush(stdout) != 0)
        return complain("standard output cannot be written");
    while (readable_within(listener, FOR_EVER)) {
        int connection = accept4(listener, NULL, NULL, SOCK_CLOEXEC);
        if (connection < 0)
            continue;
        serve(connection, listener, card, held_answer);
        held_power_off(card);
    }
    close(listener);
    return NULL;
}
