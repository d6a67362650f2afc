/* The card on a TCP port of its own. */
#ifndef READER_TCP_H
#define READER_TCP_H

#include "held.h"

/* Listens on this port of 127.0.0.1, or on a free one where it is 0, and answers every request of every connection until a signal ends
 * it. One connection is served at a time, as a card is at one phone at a time; others wait. When a connection has ended the card's power
 * goes off, before the next one is served. */
complaint tcp_serve(held_card *card, uint16_t port);

#endif
