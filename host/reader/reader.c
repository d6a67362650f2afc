/* reader: a card file as a card in a PC/SC reader, or on a TCP port. */
#include <getopt.h>
#include <stdio.h>
#include <stdlib.h>

#include "held.h"
#include "messages.h"
#include "tcp.h"
#include "version.h"
#include "vpcd.h"

#define WORDS "[--seed TEXT] [--port NUMBER | --tcp NUMBER] CARD"

static int help(void)
{
    puts("reader " WORDS "\n"
         "\n"
         "Puts a card file into a PC/SC reader, where opensc-tool, scriptor, pyscard, javax.smartcardio and others find it as the\n"
         "card of the reader 'Virtual PCD 00 00'. Needs pcscd, running, and vsmartcard-vpcd. Every request is a tap on the card\n"
         "file. Where the client powers the card off, resets it or leaves it, it forgets a request that waits. Ctrl-C ends it.\n"
         "\n"
         "  --seed TEXT    keys and draws from this seed, as for 'tap send'\n"
         "  --port NUMBER  where vpcd waits on 127.0.0.1 (35963)\n"
         "  --tcp NUMBER   no reader: listens on this port of 127.0.0.1, or on a free one where it is 0, and prints which. A\n"
         "                 message is two bytes of length, the higher first, and the request; its answer likewise\n"
         "  -h, --help     this\n"
         "  --version      what this is");
    return 0;
}

static int version(void)
{
    version_print(stdout, "reader");
    return 0;
}

static int usage(void)
{
    fputs("reader: takes " WORDS " ('reader --help' says more)\n", stderr);
    return 2;
}

/* -1 where the text is no port. */
static long port_of(const char *text)
{
    char *end;
    unsigned long port = strtoul(text, &end, 10);
    return *text >= '0' && *text <= '9' && *end == 0 && port < 65536 ? (long)port : -1;
}

int main(int count, char **arguments)
{
    static const struct option options[] = {{"seed", required_argument, NULL, 's'},
                                            {"port", required_argument, NULL, 'p'},
                                            {"tcp", required_argument, NULL, 't'},
                                            {"help", no_argument, NULL, 'h'},
                                            {"version", no_argument, NULL, 'v'},
                                            {0}};
    held_card card = {.keys = seed_of(NULL)};
    const char *port = NULL, *tcp = NULL;
    opterr = 0;
    for (int option; (option = getopt_long(count, arguments, "h", options, NULL)) != -1;)
        switch (option) {
        case 's': card.keys = seed_of(optarg); break;
        case 'p': port = optarg; break;
        case 't': tcp = optarg; break;
        case 'h': return help();
        case 'v': return version();
        default: return usage();
        }
    if (optind != count - 1 || card.keys.length == 0 || (port && (tcp || port_of(port) <= 0)) || (tcp && port_of(tcp) < 0))
        return usage();
    card.path = arguments[optind];
    ends_by_signal();
    complaint wrong = held_look(&card);
    if (!wrong)
        wrong = tcp ? tcp_serve(&card, (uint16_t)port_of(tcp)) : vpcd_serve(&card, port ? (uint16_t)port_of(port) : VPCD_PORT);
    if (wrong)
        fprintf(stderr, "reader: %s\n", wrong);
    return wrong ? 1 : 0;
}
