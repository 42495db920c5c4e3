/* What the tests in C share: a file's bytes. */
#ifndef FILES_H
#define FILES_H

#include <stdio.h>
#include <stdlib.h>

typedef struct {
    unsigned char *at;
    size_t length;
} bytes;

static bytes file_bytes(const char *path) {
    FILE *file = fopen(path, "rb");
    if (file == NULL || fseek(file, 0, SEEK_END) != 0) {
        exit(3);
    }
    bytes whole = {NULL, (size_t)ftell(file)};
    rewind(file);
    whole.at = malloc(whole.length + 1);
    if (fread(whole.at, 1, whole.length, file) != whole.length) {
        exit(3);
    }
    fclose(file);
    return whole;
}

#endif
