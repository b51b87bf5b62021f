/*
 * Reading whole files, for the hosts of this folder. Not proved.
 */
#ifndef FILES_H
#define FILES_H

#include <errno.h>
#include <stdint.h>
#include <stdio.h>
#include <stdlib.h>

/*
 * All bytes of a file and their number; the caller frees them. NULL where the file cannot be read to its end, or memory does not hold
 * it, and errno then says why: a part of a file is never handed out.
 */
static inline uint8_t *read_file(const char *name, size_t *length) {
    FILE *file = fopen(name, "rb");
    if (!file) return NULL;
    uint8_t *bytes = NULL;
    size_t room = 0;
    int why = 0;
    *length = 0;
    do {
        room = room * 2 + 4096;
        uint8_t *more = (uint8_t *)realloc(bytes, room);
        if (!more) {
            why = ENOMEM;
            break;
        }
        bytes = more;
        *length += fread(bytes + *length, 1, room - *length, file);
        if (ferror(file)) why = errno;
    } while (why == 0 && *length == room);
    fclose(file);
    if (why == 0) return bytes;
    free(bytes);
    errno = why;
    return NULL;
}

#endif
