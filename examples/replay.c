/*
 * The program of docs/RULES.md, through the functions for C: reads one account from standard input (account 2 bytes, f 1,
 * k 1, then entries), closes while it can after each taken entry, and prints what was installed and what is there at the end.
 */
#include "standby.h"
#include <stdio.h>

int main(void) {
    static uint8_t memory[STANDBY_LOT_SIZE], list[STANDBY_LIST_SIZE], entry[STANDBY_ENTRY_SIZE], rows[STANDBY_ROW_SIZE];
    uint8_t header[4] = { 0 };
    uint32_t epoch = 0, fragments, account;
    size_t length = fread(header, 1, 4, stdin);
    account = (uint32_t)(header[0] | header[1] << 8);
    fragments = length == 4 ? header[2] : 0; /* a short header is as unfit as no fragments */
    standby_start(memory, sizeof memory, 1);
    uint64_t answer = standby_open(memory, sizeof memory, 1, account, fragments, header[3]);
    if (standby_number(answer) != STANDBY_DONE) {
        printf("open refused %u\n", standby_number(answer));
        return 0;
    }
    for (unsigned long i = 0; (length = fread(entry, 1, sizeof entry, stdin)) > 0; i++) {
        answer = standby_deliver(memory, sizeof memory, 1, 0, account, entry, length);
        if (standby_number(answer) != STANDBY_DONE) {
            printf("entry %lu refused %u\n", i, standby_number(answer));
            continue;
        }
        while (standby_number(answer = standby_close(memory, sizeof memory, 1, 0, account, list, sizeof list)) == STANDBY_DONE) {
            printf("epoch %u pieces %u\n", ++epoch, standby_first(answer));
            for (uint32_t p = 0; p < standby_first(answer); p++)
                printf("piece %u %u\n", standby_number_at(list, 2 * p), standby_number_at(list, 2 * p + 1));
        }
    }
    for (uint32_t i = 0; i < fragments; i++)
        for (uint32_t k = 0; k < header[3]; k++) {
            answer = standby_read(memory, sizeof memory, 1, 0, account, i, k);
            if (standby_first(answer)) printf("record %u %u %u\n", i, k, standby_second(answer));
        }
    standby_overview(memory, sizeof memory, 1, rows, sizeof rows);
    printf("held %u\n", standby_number_at(rows, 2));
    return 0;
}
