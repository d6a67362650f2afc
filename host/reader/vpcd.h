/* The card in a PC/SC reader. */
#ifndef READER_VPCD_H
#define READER_VPCD_H

#include "held.h"

#define VPCD_PORT 35963

/* Puts the card into the reader that waits on this port of 127.0.0.1, and answers until pcscd ends. */
complaint vpcd_serve(held_card *card, uint16_t port);

#endif
