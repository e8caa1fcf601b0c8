/* The check of a journal image, as docs/IMAGE.md lays it out. */
#ifndef JOURNAL_IMAGE_H
#define JOURNAL_IMAGE_H

#include <stddef.h>
#include <stdint.h>

/* 0 where the length bytes at image are the image of a journal, and 15 where they are not. A length of 0 is no image, whatever the pointer. */
int32_t check_journal_image(const uint8_t *image, size_t length);

#endif
