/* show VOLUME PAGE: prints the text of a page, repaired. Exit status 1: refused; 2: not called so, or no such file. */
#include "pagestore.h"

#include <stdio.h>
#include <stdlib.h>

static uint8_t volume[PAGESTORE_VOLUME_MAX + 1];

/* Reads the file into `volume`; one byte more than the largest volume is enough for it to be refused. */
static size_t read_volume(const char *name) {
    FILE *file = fopen(name, "rb");
    size_t length = file ? fread(volume, 1, sizeof volume, file) : 0;
    if (!file || ferror(file)) {
        perror(name);
        exit(2);
    }
    fclose(file);
    return length;
}

int main(int argc, char **argv) {
    char *end = NULL;
    unsigned long page = argc == 3 ? strtoul(argv[2], &end, 10) : 0;
    if (argc != 3 || end == argv[2] || *end != '\0' || page > UINT32_MAX) {
        fprintf(stderr, "usage: show VOLUME PAGE, with a page number from 1\n");
        return 2;
    }
    uint8_t image[PAGESTORE_IMAGE_SIZE];
    size_t length = read_volume(argv[1]);
    uint32_t refusal = pagestore_inspect(volume, length, (uint32_t)page, image, sizeof image);
    if (refusal != PAGESTORE_OK) {
        fprintf(stderr, "%s, page %lu: refused, %u (see pagestore.h)\n", argv[1], page, (unsigned)refusal);
        return 1;
    }
    fwrite(image + PAGESTORE_IMAGE_BODY, 1, PAGESTORE_BODY_SIZE, stdout);
    putchar('\n');
    return 0;
}
