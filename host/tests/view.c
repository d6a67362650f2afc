/* Reads images from standard input and prints, for each, a line for each value of practice_view.h: its number there, the number
 * that it spells, and its bytes in hex. Before all that, the length of an image by the view and by the library. */
#include <stdio.h>

#include "hex.h"
#include "practice.h"
#include "practice_view.h"

int main(void)
{
    static uint8_t image[PRACTICE_IMAGE_ROOM];
    printf("%u %u\n", practice_view_length(), practice_image_length());
    while (fread(image, 1, practice_view_length(), stdin) == practice_view_length())
        for (int name = 0; name < PRACTICE_VIEW_VALUES; name++) {
            practice_bytes value = practice_view(image, (practice_view_name)name);
            printf("%d %u ", name, practice_view_number(image, (practice_view_name)name));
            hex_print(stdout, value.bytes, value.length);
            putchar('\n');
        }
    return 0;
}
