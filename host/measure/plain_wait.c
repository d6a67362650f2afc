/* What the security delay costs a plain card in C, written by hand from the papers: the test of the new group, how long a request waits,
 * the group cleared, and the longer copy of an image. host/bench adds these to what such a card cost before (LIMITS). Counted by
 *     gcc -O2 -o plain_wait host/measure/plain_wait.c
 *     valgrind --tool=callgrind --toggle-collect=NAME ./plain_wait
 * for each NAME: wait_is_good 188 and seconds 17, of a card that holds all it can (an argument) 38 and 17; clear_wait 139; copy 446, where
 * copy_before takes 317. */
#include <stdint.h>
#include <stdio.h>
#include <string.h>

enum { PAUSE = 96, WAIT = 1805, ROOM = 1024, IMAGE = 3474, IMAGE_BEFORE = 2445 };

static const uint8_t zeros[ROOM];

static unsigned held_size(const uint8_t *image)
{
    return (unsigned)image[WAIT + 2] << 8 | image[WAIT + 3];
}

__attribute__((noipa)) static int wait_is_good(const uint8_t *image)
{
    unsigned size = held_size(image), left = image[WAIT + 1];
    if (image[PAUSE] > 60 || image[WAIT] > 60)
        return 0;
    if (size == 0 ? left != 0 : (left < 1 || left > 120 || size < 6 || size > ROOM))
        return 0;
    return memcmp(image + WAIT + 4 + size, zeros, ROOM - size) == 0;
}

__attribute__((noipa)) static unsigned seconds(const uint8_t *image, const uint8_t *request, unsigned length, int pin2)
{
    if (held_size(image) == length && memcmp(image + WAIT + 4, request, length) == 0)
        return image[WAIT + 1] - 1u;
    return image[WAIT] + (pin2 ? image[PAUSE] : 0u);
}

__attribute__((noipa)) static void clear_wait(uint8_t *next)
{
    memset(next + WAIT, 0, 4 + ROOM);
}

__attribute__((noipa)) static void copy(uint8_t *to, const uint8_t *from)
{
    memcpy(to, from, IMAGE);
}

__attribute__((noipa)) static void copy_before(uint8_t *to, const uint8_t *from)
{
    memcpy(to, from, IMAGE_BEFORE);
}

/* With an argument the card holds all it can. */
int main(int count, char **words)
{
    static uint8_t image[IMAGE], next[IMAGE], request[49];
    (void)words;
    memset(next, 0, sizeof next); /* what the linker looks up at the first call is not counted */
    memcpy(next, image, sizeof next);
    if (memcmp(next, image, sizeof next) != 0)
        return 1;
    if (count > 1) {
        image[WAIT + 1] = 1;
        image[WAIT + 2] = ROOM >> 8;
        memset(image + WAIT + 4, 7, ROOM);
    }
    printf("%d %u\n", wait_is_good(image), seconds(image, request, sizeof request, 0));
    clear_wait(next);
    copy_before(next, image);
    copy(next, image);
    return 0;
}
