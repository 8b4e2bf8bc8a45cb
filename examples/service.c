/*
 * A small activation service's standby, in one process.
 *
 *   service                 replays the accident (below); exit status 1 where the others' answers differ
 *   service -               takes commands from standard input (service help lists them)
 *   -m FILE, last           writes the memory to FILE at the end, for the desk
 *
 * The accident: a chain of workshops renews all its leases at once, in transactions that stay open, and fills its lot.
 * Three other customers work on. Their calls are made twice, in a memory without the chain and in one where the chain's
 * calls come in between; the answers stand side by side and must be equal.
 *
 * A lease is a record: fragment = the office, key = the dongle, value = the day until which it may run.
 */
#include "standby.h"
#include <stdio.h>
#include <stdlib.h>
#include <string.h>

enum { LOTS = 4, SIZE = LOTS * STANDBY_LOT_SIZE };

/* The primary's side: what it numbers its entries with. */
struct account {
    uint32_t number, lot, fragments;
    uint16_t next[STANDBY_MOST_FRAGMENTS];
    uint32_t epoch[STANDBY_MOST_FRAGMENTS];
};
struct service {
    uint8_t memory[SIZE];
    struct account accounts[LOTS];
    int count;
};

static struct account *of(struct service *s, uint32_t number) {
    for (int i = 0; i < s->count; i++)
        if (s->accounts[i].number == number) return &s->accounts[i];
    return NULL;
}

static uint64_t open_account(struct service *s, uint32_t number, uint32_t fragments, uint32_t keys) {
    uint64_t answer = standby_open(s->memory, SIZE, LOTS, number, fragments, keys);
    if (standby_number(answer) == STANDBY_DONE && s->count < LOTS) {
        struct account *a = &s->accounts[s->count++];
        memset(a, 0, sizeof *a);
        a->number = number;
        a->lot = standby_first(answer);
        a->fragments = fragments;
        for (int i = 0; i < STANDBY_MOST_FRAGMENTS; i++) a->epoch[i] = 1;
    }
    return answer;
}

static void put16(uint8_t *p, uint32_t x) { p[0] = (uint8_t)x; p[1] = (uint8_t)(x >> 8); }
static void put32(uint8_t *p, uint32_t x) { put16(p, x); put16(p + 2, x >> 16); }

/* One entry: the primary numbers it; a taken one uses the number up. */
static uint64_t deliver(struct service *s, struct account *a, uint32_t kind, uint32_t fragment, uint32_t transaction,
                        uint32_t argument, uint32_t value) {
    uint8_t entry[STANDBY_ENTRY_SIZE] = { (uint8_t)kind, (uint8_t)fragment };
    uint32_t i = fragment % STANDBY_MOST_FRAGMENTS;
    put16(entry + 2, a->next[i]);
    put32(entry + 4, kind == STANDBY_MARK ? a->epoch[i] : transaction);
    put16(entry + 8, argument);
    put32(entry + 12, value);
    uint64_t answer = standby_deliver(s->memory, SIZE, LOTS, a->lot, a->number, entry, sizeof entry);
    if (standby_number(answer) == STANDBY_DONE) {
        a->next[i]++;
        if (kind == STANDBY_MARK) a->epoch[i]++;
    }
    return answer;
}

/* ---- answers in words */

static void words(char *to, size_t size, uint64_t answer) {
    snprintf(to, size, "%u %s", standby_number(answer), standby_short(standby_number(answer)));
}

static void close_in_words(struct service *s, struct account *a, char *to, size_t size) {
    uint8_t list[STANDBY_LIST_SIZE];
    uint64_t answer = standby_close(s->memory, SIZE, LOTS, a->lot, a->number, list, sizeof list);
    words(to, size, answer);
    size_t n = strlen(to);
    if (standby_number(answer) == STANDBY_MARK_MISSING)
        snprintf(to + n, size - n, ": byte %02x, %u streams", standby_first(answer), standby_second(answer));
    if (standby_number(answer) != STANDBY_DONE) return;
    snprintf(to + n, size - n, ", pieces %u", standby_first(answer));
    for (uint32_t i = 0; i < standby_first(answer); i++) {
        n = strlen(to);
        snprintf(to + n, size - n, " (%u %u)", standby_number_at(list, 2 * i), standby_number_at(list, 2 * i + 1));
    }
}

static void read_in_words(struct service *s, struct account *a, uint32_t fragment, uint32_t key, char *to, size_t size) {
    uint64_t answer = standby_read(s->memory, SIZE, LOTS, a->lot, a->number, fragment, key);
    words(to, size, answer);
    size_t n = strlen(to);
    if (standby_number(answer) != STANDBY_DONE) return;
    if (standby_first(answer)) snprintf(to + n, size - n, ", until day %u", standby_second(answer));
    else snprintf(to + n, size - n, ", no lease");
}

static void save_in_words(struct service *s, struct account *a, char *to, size_t size) {
    static uint8_t image[STANDBY_LONGEST_IMAGE];
    uint64_t answer = standby_save(s->memory, SIZE, LOTS, a->lot, a->number, image, sizeof image);
    uint32_t sum = 2166136261u; /* FNV-1a over the image */
    for (uint32_t i = 0; i < standby_first(answer); i++) sum = (sum ^ image[i]) * 16777619u;
    words(to, size, answer);
    size_t n = strlen(to);
    snprintf(to + n, size - n, ", %u bytes, sum %08x", standby_first(answer), sum);
}

/* ---- the accident */

enum { MOST_LINES = 400, WIDTH = 96 };
struct said { char call[MOST_LINES][WIDTH], answer[MOST_LINES][WIDTH]; int lines; };

static const struct { uint32_t number, fragments; const char *name; } others[] = {
    { 11, 2, "Harbour Engines" }, { 12, 1, "Dr Lindqvist" }, { 13, 3, "Northern Scales" },
};
enum { CHAIN = 500, OTHERS = 3 };

static void deliver_and_say(struct service *s, struct said *said, int who, uint32_t kind, uint32_t fragment, uint32_t t,
                            uint32_t argument, uint32_t value) {
    static const char *const kinds[] = { "", "put", "delete", "P", "CC", "CP", "A", "mark" };
    int line = said->lines++;
    snprintf(said->call[line], WIDTH, "%s: %s %u in stream %u", others[who].name, kinds[kind],
             kind == STANDBY_MARK ? of(s, others[who].number)->epoch[fragment] : t, fragment);
    words(said->answer[line], WIDTH, deliver(s, of(s, others[who].number), kind, fragment, t, argument, value));
}

/*
 * A lease of a customer: a transaction at one office, or at two: the second prepares, and hears of the commit only in the
 * hour after.
 */
static void lease(struct service *s, struct said *said, int who, uint32_t t, uint32_t day) {
    uint32_t fragments = others[who].fragments, at = t % fragments, with = (at + 1) % fragments, dongle = t * 5 % 16;
    if (with != at && t > OTHERS) deliver_and_say(s, said, who, STANDBY_CP, (t - OTHERS + 1) % fragments, t - OTHERS, 0, 0);
    deliver_and_say(s, said, who, STANDBY_PUT, at, t, dongle, day);
    if (with != at) {
        deliver_and_say(s, said, who, STANDBY_PUT, with, t, dongle + 16, day);
        deliver_and_say(s, said, who, STANDBY_P, with, t, at, 0);
    }
    deliver_and_say(s, said, who, STANDBY_CC, at, t, 0, 0);
}

static void night(struct service *s, struct said *said, int with_chain, uint32_t refused[32]) {
    char ignored[4096];
    uint32_t t = 1;
    if (standby_number(standby_start(s->memory, SIZE, LOTS)) != STANDBY_DONE) exit(2);
    open_account(s, others[0].number, others[0].fragments, 32);
    if (with_chain) open_account(s, CHAIN, 8, 128);
    for (int i = 1; i < OTHERS; i++) open_account(s, others[i].number, others[i].fragments, 32);
    for (uint32_t hour = 1; hour <= 3; hour++) {
        for (int who = 0; who < OTHERS; who++, t++) {
            lease(s, said, who, t, 1000 + 10 * hour);
            if (with_chain) /* a branch's dongles, all in one transaction that stays open */
                for (uint32_t i = 0; i < 100; i++) {
                    uint64_t answer = deliver(s, of(s, CHAIN), STANDBY_PUT, t % 8, t, i, 2000 + i);
                    refused[standby_number(answer)]++;
                }
        }
        if (with_chain) {
            for (uint32_t i = 0; i < 8; i++) deliver(s, of(s, CHAIN), STANDBY_MARK, i, 0, 0, 0);
            close_in_words(s, of(s, CHAIN), ignored, sizeof ignored);
        }
        for (int who = 0; who < OTHERS; who++) {
            struct account *a = of(s, others[who].number);
            for (uint32_t i = 0; i < a->fragments; i++) deliver_and_say(s, said, who, STANDBY_MARK, i, 0, 0, 0);
            int line = said->lines++;
            snprintf(said->call[line], WIDTH, "%s: close epoch %u", others[who].name, hour);
            close_in_words(s, a, said->answer[line], WIDTH);
            uint32_t mine = t - OTHERS + (uint32_t)who;
            line = said->lines++;
            snprintf(said->call[line], WIDTH, "%s: read dongle %u", others[who].name, mine * 5 % 16);
            read_in_words(s, a, mine % a->fragments, mine * 5 % 16, said->answer[line], WIDTH);
        }
    }
    for (int who = 0; who < OTHERS; who++) {
        int line = said->lines++;
        snprintf(said->call[line], WIDTH, "%s: save", others[who].name);
        save_in_words(s, of(s, others[who].number), said->answer[line], WIDTH);
    }
}

static int accident(struct service *kept) {
    static struct service quiet;
    static struct said without, with;
    uint32_t none[32] = { 0 }, refused[32] = { 0 };
    int differ = 0;
    night(&quiet, &without, 0, none);
    night(kept, &with, 1, refused);
    printf("%-34s | %-32s | %-32s\n", "call", "without the chain", "with the chain");
    for (int i = 0; i < without.lines; i++) {
        int same = strcmp(without.call[i], with.call[i]) == 0 && strcmp(without.answer[i], with.answer[i]) == 0;
        printf("%-34s | %-32s | %s%s\n", without.call[i], without.answer[i], with.answer[i], same ? "" : "  <-- differs");
        differ += !same;
    }
    differ += without.lines != with.lines;
    printf("\nthe chain (account %d): %u entries taken", CHAIN, refused[0]);
    for (uint32_t i = 1; i < 32; i++)
        if (refused[i]) printf(", %u refused with %u: %s", refused[i], i, standby_text(i));
    printf("\nthe others: %d answers, %d differ\n", without.lines, differ);
    if (refused[STANDBY_FULL] == 0) {
        printf("the chain's lot did not fill\n");
        return 1;
    }
    return differ != 0;
}

/* ---- commands */

static const char help[] =
    "open ACCOUNT FRAGMENTS KEYS          put ACCOUNT FRAGMENT TRANSACTION KEY VALUE\n"
    "delete ACCOUNT FRAGMENT T KEY        p ACCOUNT FRAGMENT T COORDINATOR\n"
    "cc ACCOUNT FRAGMENT T                cp ACCOUNT FRAGMENT T\n"
    "a ACCOUNT FRAGMENT T                 mark ACCOUNT FRAGMENT\n"
    "close ACCOUNT                        read ACCOUNT FRAGMENT KEY\n"
    "save ACCOUNT                         drop ACCOUNT\n";

static int commands(struct service *s) {
    static const struct { const char *name; uint32_t kind; } kinds[] = {
        { "put", STANDBY_PUT }, { "delete", STANDBY_DELETE }, { "p", STANDBY_P }, { "cc", STANDBY_CC }, { "cp", STANDBY_CP },
        { "a", STANDBY_A }, { "mark", STANDBY_MARK },
    };
    char line[256], name[16], said[8192];
    if (standby_number(standby_start(s->memory, SIZE, LOTS)) != STANDBY_DONE) return 2;
    while (fgets(line, sizeof line, stdin)) {
        unsigned n[5] = { 0 };
        int words_read = sscanf(line, "%15s %u %u %u %u %u", name, &n[0], &n[1], &n[2], &n[3], &n[4]);
        if (words_read < 1 || name[0] == '#') continue;
        struct account *a = of(s, n[0]);
        said[0] = 0;
        if (strcmp(name, "open") == 0) {
            uint64_t answer = open_account(s, n[0], n[1], n[2]);
            words(said, sizeof said, answer);
            if (standby_number(answer) == STANDBY_DONE) sprintf(said + strlen(said), ", lot %u", standby_first(answer));
        } else if (words_read < 2 || !a) {
            printf("? %s%s", line, help);
            continue;
        } else if (strcmp(name, "close") == 0) close_in_words(s, a, said, sizeof said);
        else if (strcmp(name, "read") == 0) read_in_words(s, a, n[1], n[2], said, sizeof said);
        else if (strcmp(name, "save") == 0) save_in_words(s, a, said, sizeof said);
        else if (strcmp(name, "drop") == 0) {
            uint64_t answer = standby_drop(s->memory, SIZE, LOTS, a->lot, a->number);
            words(said, sizeof said, answer);
            if (standby_number(answer) == STANDBY_DONE) *a = s->accounts[--s->count];
        } else
            for (size_t i = 0; i < sizeof kinds / sizeof kinds[0]; i++)
                if (strcmp(name, kinds[i].name) == 0) words(said, sizeof said, deliver(s, a, kinds[i].kind, n[1], n[2], n[3], n[4]));
        printf("%s\n", said[0] ? said : help);
    }
    return 0;
}

int main(int argc, char **argv) {
    static struct service s;
    const char *file = argc >= 3 && strcmp(argv[argc - 2], "-m") == 0 ? argv[argc - 1] : NULL;
    int status;
    if (argc > 1 && strcmp(argv[1], "-") == 0) status = commands(&s);
    else if (argc == (file ? 3 : 1)) status = accident(&s);
    else {
        fprintf(stderr, "usage: service [-] [-m FILE]\ncommands on standard input with -:\n%s", help);
        return 2;
    }
    if (file) {
        FILE *out = fopen(file, "wb");
        if (!out || fwrite(s.memory, 1, SIZE, out) != SIZE || fclose(out) != 0) {
            perror(file);
            return 2;
        }
    }
    return status;
}
