/* Reads a file and prints what the check says of it: 0 for a journal image, 15 for anything else. */
#include "journal_image.h"

#include <stdio.h>
#include <stdlib.h>

int main(int argc, char **argv)
{
    if (argc != 2) {
        fprintf(stderr, "usage: %s FILE\n", argv[0]);
        return 2;
    }
    FILE *file = fopen(argv[1], "rb");
    if (file == NULL) {
        perror(argv[1]);
        return 1;
    }
    uint8_t *image = NULL;
    size_t length = 0, room = 0, got;
    do {
        if (length == room) {
            room = room == 0 ? 4096 : 2 * room;
            uint8_t *more = realloc(image, room);
            if (more == NULL) {
                perror("realloc");
                return 1;
            }
            image = more;
        }
        got = fread(image + length, 1, room - length, file);
        length += got;
    } while (got > 0);
    if (ferror(file)) {
        perror(argv[1]);
        return 1;
    }
    fclose(file);
    printf("%d\n", (int)check_journal_image(length == 0 ? NULL : image, length));
    free(image);
    return 0;
}
