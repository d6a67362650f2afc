/* Personalisation sheets. */
#ifndef SHEET_H
#define SHEET_H

#include <stddef.h>
#include <stdint.h>

#include "complaint.h"
#include "practice.h"

#define SHEET_ROOM 65536
#define SHEET_LINES 14 /* and one more where it has a pause */

/* The fresh card of a sheet, or a complaint that names the first bad line and says what it should be. */
complaint sheet_card(const uint8_t *sheet, size_t length, uint8_t image[PRACTICE_IMAGE_ROOM]);

/* Of the line behind the lines of a good sheet, in a recording: whether it is the sheet's last one and no tap. Then the image is that of
 * the whole sheet. The line stands here without its line feed. */
int sheet_goes_on(const uint8_t *sheet, size_t length, const char *line, size_t line_length, uint8_t image[PRACTICE_IMAGE_ROOM]);

#endif
