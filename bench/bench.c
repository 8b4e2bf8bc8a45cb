/*
 * ns a call, ours (the functions of include/standby.h) beside the baseline, in one run.
 *
 * Each figure is a median over repeats. In a repeat every call is made once on each of 16 memories of one lot that were
 * just restored to the same bytes, so the calls that change the lot are timed in the state that the line names. Ours and
 * the baseline take turns within a repeat.
 */
#define _POSIX_C_SOURCE 199309L
#include "standby.h"
#include <stdio.h>
#include <stdlib.h>
#include <string.h>
#include <time.h>

#define BASELINE(ret, name, ...) ret baseline_##name(__VA_ARGS__)
BASELINE(uint64_t, start, uint8_t *, size_t, uint32_t);
BASELINE(uint64_t, open, uint8_t *, size_t, uint32_t, uint32_t, uint32_t, uint32_t);
BASELINE(uint64_t, deliver, uint8_t *, size_t, uint32_t, uint32_t, uint32_t, const uint8_t *, size_t);
BASELINE(uint64_t, close, uint8_t *, size_t, uint32_t, uint32_t, uint32_t, uint8_t *, size_t);
BASELINE(uint64_t, read, const uint8_t *, size_t, uint32_t, uint32_t, uint32_t, uint32_t, uint32_t);
BASELINE(uint64_t, save, const uint8_t *, size_t, uint32_t, uint32_t, uint32_t, uint8_t *, size_t);
BASELINE(uint64_t, load, uint8_t *, size_t, uint32_t, const uint8_t *, size_t);
BASELINE(uint64_t, drop, uint8_t *, size_t, uint32_t, uint32_t, uint32_t);
BASELINE(uint64_t, overview, const uint8_t *, size_t, uint32_t, uint8_t *, size_t);

struct calls {
    uint64_t (*start)(uint8_t *, size_t, uint32_t);
    uint64_t (*open)(uint8_t *, size_t, uint32_t, uint32_t, uint32_t, uint32_t);
    uint64_t (*deliver)(uint8_t *, size_t, uint32_t, uint32_t, uint32_t, const uint8_t *, size_t);
    uint64_t (*close)(uint8_t *, size_t, uint32_t, uint32_t, uint32_t, uint8_t *, size_t);
    uint64_t (*read)(const uint8_t *, size_t, uint32_t, uint32_t, uint32_t, uint32_t, uint32_t);
    uint64_t (*save)(const uint8_t *, size_t, uint32_t, uint32_t, uint32_t, uint8_t *, size_t);
    uint64_t (*load)(uint8_t *, size_t, uint32_t, const uint8_t *, size_t);
    uint64_t (*drop)(uint8_t *, size_t, uint32_t, uint32_t, uint32_t);
    uint64_t (*overview)(const uint8_t *, size_t, uint32_t, uint8_t *, size_t);
};
static const struct calls both[2] = {
    { standby_start, standby_open, standby_deliver, standby_close, standby_read, standby_save, standby_load, standby_drop,
      standby_overview },
    { baseline_start, baseline_open, baseline_deliver, baseline_close, baseline_read, baseline_save, baseline_load,
      baseline_drop, baseline_overview },
};

enum { LOTS = 16, ONE = STANDBY_LOT_SIZE, ALL = LOTS * ONE, MOST_REPEATS = 4001 };
static uint8_t memory[2][ALL], prepared[2][ALL], list[STANDBY_LIST_SIZE], image[STANDBY_LONGEST_IMAGE], rows[LOTS * STANDBY_ROW_SIZE];
static uint8_t longest[STANDBY_LONGEST_IMAGE];
static int repeats = 1001;

static void must(uint64_t answer, const char *what) {
    if (standby_number(answer) != STANDBY_DONE) {
        fprintf(stderr, "bench: %s: refused with %u. %s\n", what, standby_number(answer), standby_text(standby_number(answer)));
        exit(1);
    }
}

static void entry_of(uint8_t *e, unsigned kind, unsigned fragment, unsigned sequence, uint32_t t, unsigned argument, uint32_t value) {
    uint8_t b[16] = { (uint8_t)kind, (uint8_t)fragment, (uint8_t)sequence, (uint8_t)(sequence >> 8), (uint8_t)t, (uint8_t)(t >> 8),
                      (uint8_t)(t >> 16), (uint8_t)(t >> 24), (uint8_t)argument, (uint8_t)(argument >> 8), 0, 0,
                      (uint8_t)value, (uint8_t)(value >> 8), (uint8_t)(value >> 16), (uint8_t)(value >> 24) };
    memcpy(e, b, 16);
}

/* ---- accounts to measure on: 4 fragments, 128 keys */

static unsigned next[8];
static void say(const struct calls *c, uint8_t *lot, unsigned kind, unsigned fragment, uint32_t t, unsigned argument, uint32_t value) {
    uint8_t e[16];
    entry_of(e, kind, fragment, next[fragment]++, t, argument, value);
    must(c->deliver(lot, ONE, 1, 0, 7, e, 16), "deliver");
}

/*
 * So many held, in turns of eight: a transaction with its coordinator in stream 0 and a participant in stream 1 (put, CC;
 * put, P), then a local one in stream 2 (three puts, CC). `decided` 0: only puts of open transactions, so nothing settles.
 */
static void hold(const struct calls *c, uint8_t *lot, unsigned count, int decided) {
    must(c->start(lot, ONE, 1), "start");
    must(c->open(lot, ONE, 1, 7, 4, 128), "open");
    memset(next, 0, sizeof next);
    for (unsigned i = 0; i < count; i++) {
        uint32_t t = 1 + i / 8 * 2, local = t + 1, key = i * 7 % 128;
        if (!decided) {
            say(c, lot, STANDBY_PUT, i % 4, 1 + i / 4, key, i);
            continue;
        }
        switch (i % 8) {
        case 0: say(c, lot, STANDBY_PUT, 0, t, key, i); break;
        case 1: say(c, lot, STANDBY_CC, 0, t, 0, 0); break;
        case 2: say(c, lot, STANDBY_PUT, 1, t, key, i); break;
        case 3: say(c, lot, STANDBY_P, 1, t, 0, 0); break;
        case 7: say(c, lot, STANDBY_CC, 2, local, 0, 0); break;
        default: say(c, lot, STANDBY_PUT, 2, local, key, i);
        }
    }
}
static void marks(const struct calls *c, uint8_t *lot) {
    for (unsigned i = 0; i < 4; i++) say(c, lot, STANDBY_MARK, i, 1, 0, 0);
}

static void put32(uint8_t *p, uint32_t x) { p[0] = (uint8_t)x; p[1] = (uint8_t)(x >> 8); p[2] = (uint8_t)(x >> 16); p[3] = (uint8_t)(x >> 24); }

/* the longest image: 8 streams, 1,024 records, 256 held */
static void make_longest(void) {
    uint8_t *p = longest;
    for (int i = 0; i < 8; i++, p += 8) put32(p, 0), put32(p + 4, 1);
    for (uint32_t i = 0; i < 1024; i++, p += 8) put32(p, i / 128 | i % 128 << 16), put32(p + 4, i * 77);
    for (uint32_t i = 0; i < 256; i++, p += 20) {
        entry_of(p, i % 8 == 7 ? STANDBY_CC : STANDBY_PUT, i / 32, 0, 1 + i / 8, i % 8 == 7 ? 0 : i % 128, i % 8 == 7 ? 0 : i);
        put32(p + 16, 1);
    }
    put32(p, 7 | 8 << 16), put32(p + 4, 128 | 1024u << 16), put32(p + 8, 256), put32(p + 12, 0), put32(p + 16, STANDBY_LONGEST_IMAGE);
    memcpy(p + 20, "\x45\x50\x42\x31", 4);
}

/* ---- timing */

enum what { DELIVER, READ, CLOSE, SAVE, LOAD, OVERVIEW };
static uint8_t due[16];

static void once(const struct calls *c, uint8_t *m, enum what what) {
    uint64_t a = 0;
    for (int i = 0; i < LOTS; i++) {
        uint8_t *lot = m + i * ONE;
        switch (what) {
        case DELIVER: a |= c->deliver(lot, ONE, 1, 0, 7, due, 16); break;
        case READ: a |= c->read(lot, ONE, 1, 0, 7, 3, 127); break;
        case CLOSE: a |= c->close(lot, ONE, 1, 0, 7, list, sizeof list); break;
        case SAVE: a |= c->save(lot, ONE, 1, 0, 7, image, sizeof image); break;
        case LOAD: a |= c->load(lot, ONE, 1, longest, sizeof longest); break;
        case OVERVIEW: a |= c->overview(m, ALL, LOTS, rows, sizeof rows); break;
        }
    }
    must(a & 0xff, "a measured call");
}

static double now(void) {
    struct timespec t;
    clock_gettime(CLOCK_MONOTONIC, &t);
    return (double)t.tv_sec * 1e9 + (double)t.tv_nsec;
}
static int by_size(const void *a, const void *b) {
    double x = *(const double *)a, y = *(const double *)b;
    return (x > y) - (x < y);
}

/* median ns a call, of ours and of the baseline */
static void measure(enum what what, double result[2]) {
    static double times[2][MOST_REPEATS];
    for (int r = -20; r < repeats; r++)
        for (int turn = 0; turn < 2; turn++) {
            int who = (r & 1) ^ turn;
            memcpy(memory[who], prepared[who], ALL);
            double from = now();
            once(&both[who], memory[who], what);
            double taken = now() - from;
            if (r >= 0) times[who][r] = taken / LOTS;
        }
    for (int who = 0; who < 2; who++) {
        qsort(times[who], (size_t)repeats, sizeof(double), by_size);
        result[who] = times[who][repeats / 2];
    }
}

static void line(const char *name, const double ns[2]) { printf("%-34s %10.0f %10.0f %8.2f\n", name, ns[0], ns[1], ns[0] / ns[1]); }

static void everywhere(void) {
    for (int who = 0; who < 2; who++)
        for (int i = 1; i < LOTS; i++) memcpy(prepared[who] + i * ONE, prepared[who], ONE);
}

static void prepare_held(unsigned held, int decided, int with_marks) {
    for (int who = 0; who < 2; who++) {
        hold(&both[who], prepared[who], held, decided);
        if (with_marks) marks(&both[who], prepared[who]);
    }
    everywhere();
    entry_of(due, STANDBY_PUT, 1, next[1], 90000, 5, 5);
}

int main(int argc, char **argv) {
    static const unsigned counts[] = { 0, 16, 128, 255 };
    static const char *const names[] = { "deliver", "read", "close" };
    double ns[2], grown[3][9][2];
    char name[64];
    if (argc > 1 && strcmp(argv[1], "quick") == 0) repeats = 51;
    else if (argc > 1) repeats = atoi(argv[1]);
    if (repeats < 1 || repeats > MOST_REPEATS) {
        fprintf(stderr, "usage: bench [quick | REPEATS]   (1 to %d, default 1001)\n", MOST_REPEATS);
        return 2;
    }
    make_longest();
    printf("medians of %d repeats of 16 calls; 4 fragments, 128 keys; times in ns a call\n\n", repeats);
    printf("%-34s %10s %10s %8s\n", "call", "ours", "baseline", "ratio");
    for (enum what what = DELIVER; what <= CLOSE; what++)
        for (int i = 0; i < 4; i++) {
            prepare_held(counts[i], 1, what == CLOSE);
            measure(what, ns);
            snprintf(name, sizeof name, "%s, %u held", names[what], counts[i]);
            line(name, ns);
        }
    prepare_held(256, 1, 1);
    measure(CLOSE, ns);
    line("close, full lot, all decided", ns);
    prepare_held(256, 0, 1);
    measure(CLOSE, ns);
    line("close, full lot, none decided", ns);
    for (int who = 0; who < 2; who++) {
        must(both[who].start(prepared[who], ONE, 1), "start");
        must(both[who].load(prepared[who], ONE, 1, longest, sizeof longest), "load of the longest image");
    }
    everywhere();
    measure(SAVE, ns);
    line("save, longest image", ns);
    for (int who = 0; who < 2; who++) must(both[who].start(prepared[who], ONE, 1), "start");
    everywhere();
    measure(LOAD, ns);
    line("load, longest image", ns);
    prepare_held(256, 1, 0);
    measure(OVERVIEW, ns);
    line("overview, 16 full lots", ns);

    printf("\nhow the cost grows with held entries (ns a call, ours / baseline)\n\n%6s", "held");
    for (int i = 0; i < 3; i++) printf(" %19s", names[i]);
    printf("\n");
    for (unsigned i = 0; i < 9; i++) {
        unsigned held = i * 32 < 255 ? i * 32 : 255;
        for (enum what what = DELIVER; what <= CLOSE; what++) {
            prepare_held(held, 1, what == CLOSE);
            measure(what, grown[what][i]);
        }
        printf("%6u", held);
        for (int what = 0; what < 3; what++) printf(" %9.0f %9.0f", grown[what][i][0], grown[what][i][1]);
        printf("\n");
    }
    return 0;
}
