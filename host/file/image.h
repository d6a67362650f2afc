/* The values of a card's image as they are shown, and whether bytes are one. */
#ifndef IMAGE_H
#define IMAGE_H

#include <stddef.h>
#include <stdint.h>

#include "complaint.h"
#include "practice_view.h"
#include "values.h"

typedef struct {
    const char *name;
    value_form form;
    const uint8_t *bytes;
    size_t length;
} image_value;

/* A value of an image that is a card. */
image_value image_get(const uint8_t *image, practice_view_name name);

/* What is said of a card from before there was activation, or the security delay: one but for values that are not there. NULL where the
 * bytes are none. */
complaint image_of_before(const uint8_t *image, size_t length);

/* NULL where the bytes are a card, by the library's own word. */
complaint image_is_card(const uint8_t *image, size_t length);

#endif
