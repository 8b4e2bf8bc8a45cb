/*
 * For the desk.
 *
 *   desk overview MEMORY            the lots of a memory file, as a table
 *   desk save MEMORY LOT IMAGE      writes the image of the account in that lot to a file
 *   desk refusal [NUMBER]           what a refusal means
 */
#include "standby.h"
#include <stdio.h>
#include <stdlib.h>
#include <string.h>

static uint8_t memory[STANDBY_MOST_LOTS * STANDBY_LOT_SIZE + 1];
static uint8_t rows[STANDBY_MOST_LOTS * STANDBY_ROW_SIZE];
static uint8_t image[STANDBY_LONGEST_IMAGE];

static int refused(uint64_t answer) {
    uint32_t number = standby_number(answer);
    if (number != STANDBY_DONE) fprintf(stderr, "refused with %u: %s\n", number, standby_text(number));
    return number != STANDBY_DONE;
}

static size_t read_file(const char *name) {
    FILE *in = fopen(name, "rb");
    if (!in) {
        perror(name);
        exit(2);
    }
    size_t length = fread(memory, 1, sizeof memory, in);
    fclose(in);
    return length;
}

int main(int argc, char **argv) {
    if (argc >= 2 && argc <= 3 && strcmp(argv[1], "refusal") == 0) {
        uint32_t from = argc == 3 ? (uint32_t)strtoul(argv[2], NULL, 10) : 0, to = argc == 3 ? from : STANDBY_NOT_ACCEPTED;
        for (uint32_t i = from; i <= to; i++) printf("%2u  %-16s  %s\n", i, standby_short(i), standby_text(i));
        return 0;
    }
    if (argc == 3 && strcmp(argv[1], "overview") == 0) {
        size_t length = read_file(argv[2]);
        uint32_t lots = (uint32_t)(length / STANDBY_LOT_SIZE);
        if (refused(standby_overview(memory, length, lots, rows, sizeof rows))) return 1;
        printf("%3s  %7s  %12s  %4s\n", "lot", "account", "closed epoch", "held");
        for (uint32_t i = 0; i < lots; i++) {
            uint32_t account = standby_number_at(rows, 4 * i), held = standby_number_at(rows, 4 * i + 2);
            if (standby_number_at(rows, 4 * i + 3)) printf("%3u  DAMAGED: drop it and load the account's last image\n", i);
            else if (account == 0) printf("%3u  free\n", i);
            else
                printf("%3u  %7u  %12u  %4u%s\n", i, account, standby_number_at(rows, 4 * i + 1), held,
                       held == STANDBY_MOST_HELD ? "  FULL: takes only marks until epochs are closed" : "");
        }
        return 0;
    }
    if (argc == 5 && strcmp(argv[1], "save") == 0) {
        size_t length = read_file(argv[2]);
        uint32_t lots = (uint32_t)(length / STANDBY_LOT_SIZE), lot = (uint32_t)strtoul(argv[3], NULL, 10);
        if (refused(standby_overview(memory, length, lots, rows, sizeof rows))) return 1;
        uint32_t account = lot < lots ? standby_number_at(rows, 4 * lot) : 0;
        uint64_t answer = standby_save(memory, length, lots, lot, account, image, sizeof image);
        if (refused(answer)) return 1;
        FILE *out = fopen(argv[4], "wb");
        if (!out || fwrite(image, 1, standby_first(answer), out) != standby_first(answer) || fclose(out) != 0) {
            perror(argv[4]);
            return 2;
        }
        printf("account %u: %u bytes\n", account, standby_first(answer));
        return 0;
    }
    fprintf(stderr, "usage: desk overview MEMORY | desk save MEMORY LOT IMAGE | desk refusal [NUMBER]\n");
    return 2;
}
