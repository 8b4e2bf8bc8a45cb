/*
 * Prints what an image file holds: show-image FILE.
 *
 * A reader of its own, written from "The saved image" of docs/RULES.md; it needs neither the library nor its header.
 * The image is at the end of the file. It shows what is there and judges only what it needs to find its way: the last four
 * bytes, the counts and the length. Whether load accepts it is load's to say.
 */
#include <stdint.h>
#include <stdio.h>
#include <stdlib.h>
#include <string.h>

static unsigned number2(const uint8_t *p) { return (unsigned)(p[0] | p[1] << 8); }
static uint32_t number4(const uint8_t *p) { return (uint32_t)number2(p) | (uint32_t)number2(p + 2) << 16; }

static void held_entry(const uint8_t *e) {
    static const char *const kinds[] = { "?", "put", "delete", "P", "CC", "CP", "A", "mark?" };
    unsigned kind = e[0] < 8 ? e[0] : 0;
    printf("held    stream %u  epoch %u  transaction %u  %s", e[1], number4(e + 16), number4(e + 4), kinds[kind]);
    if (kind == 1) printf(" key %u value %u", number2(e + 8), number4(e + 12));
    if (kind == 2) printf(" key %u", number2(e + 8));
    if (kind == 3) printf(" coordinator %u%s", number2(e + 8), e[11] ? ", flagged" : "");
    printf("\n");
}

int main(int argc, char **argv) {
    FILE *in = argc == 2 ? fopen(argv[1], "rb") : NULL;
    if (!in || fseek(in, 0, SEEK_END) != 0) {
        fprintf(stderr, "usage: show-image FILE\n");
        return 2;
    }
    long size = ftell(in);
    uint8_t trailer[24], image[65536];
    if (size < 24 || fseek(in, size - 24, SEEK_SET) != 0 || fread(trailer, 1, 24, in) != 24 ||
        memcmp(trailer + 20, "\x45\x50\x42\x31", 4) != 0) {
        printf("no image: the file does not end with 45 50 42 31\n");
        return 1;
    }
    unsigned f = trailer[2], records = number2(trailer + 6), held = number2(trailer + 8);
    uint32_t length = number4(trailer + 16);
    if (length != 8 * f + 8 * records + 20 * held + 24 || length > (uint32_t)size || length > sizeof image) {
        printf("no image: its counts and its length do not agree, or the file is cut short\n");
        return 1;
    }
    if (fseek(in, size - (long)length, SEEK_SET) != 0 || fread(image, 1, length, in) != length) {
        perror(argv[1]);
        return 2;
    }
    fclose(in);
    printf("account %u  fragments %u  keys %u  closed epoch %u  records %u  held %u  (%u bytes", number2(trailer), f,
           number2(trailer + 4), number4(trailer + 12), records, held, length);
    printf(size > (long)length ? ", after %ld others)\n" : ")\n", size - (long)length);
    const uint8_t *p = image;
    for (unsigned i = 0; i < f; i++, p += 8) printf("stream  %u  next number %u  open epoch %u\n", i, number2(p), number4(p + 4));
    for (unsigned i = 0; i < records; i++, p += 8) printf("record  fragment %u  key %u  value %u\n", p[0], number2(p + 2), number4(p + 4));
    for (unsigned i = 0; i < held; i++, p += 20) held_entry(p);
    return 0;
}
