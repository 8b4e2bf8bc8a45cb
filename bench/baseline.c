/*
 * The baseline: the rules of docs/RULES.md in plain C, over the lot of docs/LOT.md, with the functions of
 * include/standby.h under other names. Nothing here is proved; it is what ours is measured and compared against.
 *
 * PREFIX names the functions: baseline_start, ..; with -DPREFIX=standby_ it takes the place of libservice.a.
 */
#include <stddef.h>
#include <stdint.h>
#include <string.h>

#ifndef PREFIX
#define PREFIX baseline_
#endif
#define JOIN(a, b) a##b
#define NAMED(a, b) JOIN(a, b)
#define NAME(x) NAMED(PREFIX, x)

typedef uint8_t u8;
typedef uint16_t u16;
typedef uint32_t u32;
typedef uint64_t u64;

enum { PUT = 1, DELETE, P, CC, CP, A, MARK };
enum { LOT = 10320, STREAMS = 16, HELD = 80, PLACE = 20, RECORDS = 5200, RECORD = 5, MOST = 256, LONGEST = 13400, TRAILER = 24 };
enum { NO_SUCH_LOT = 1, DAMAGED, NOT_THIS, LENGTH, UNFIT, OUTSIDE, SEEN, GAP, WRONG_MARK, OUT_OF_TURN, FULL, MISSING,
       ALREADY_OPEN, NO_FREE_LOT, UNFIT_ACCOUNT, TOO_SHORT, NOT_ACCEPTED };

static u32 get16(const u8 *p) { return (u32)p[0] | (u32)p[1] << 8; }
static u32 get32(const u8 *p) { return get16(p) | get16(p + 2) << 16; }
static void put16(u8 *p, u32 x) { p[0] = (u8)x; p[1] = (u8)(x >> 8); }
static void put32(u8 *p, u32 x) { put16(p, x); put16(p + 2, x >> 16); }
static u64 answer(u32 number, u32 first, u32 second) { return number | (u64)first << 8 | (u64)second << 32; }

/* ---- a transaction's entries in a stream, found by chains */

struct chains { u16 head[MOST], next[MOST]; };

static u32 bucket(u32 stream, u32 t) { return ((t * 2654435761u >> 24) + stream * 37) & 255; }
static void clear(struct chains *c) { memset(c->head, 0xff, sizeof c->head); }
static void add(struct chains *c, u32 i, u32 stream, u32 t) {
    u32 b = bucket(stream, t);
    c->next[i] = c->head[b];
    c->head[b] = (u16)i;
}
/* the last entry of t in the stream that was added, or MOST */
static u32 last(const struct chains *c, const u8 *held, u32 stream, u32 t) {
    u32 i = c->head[bucket(stream, t)];
    while (i < MOST && !(held[i * PLACE + 1] == stream && get32(held + i * PLACE + 4) == t)) i = c->next[i];
    return i < MOST ? i : MOST;
}

/* ---- judging an entry */

/* 5, but for bytes 10 and 11 */
static int fields_fit(const u8 *e) {
    u32 kind = e[0], t = get32(e + 4);
    if (kind < PUT || kind > MARK || t == 0) return 0;
    if (kind == MARK && t == 0xffffffff) return 0;
    if (kind > P && get16(e + 8) != 0) return 0;
    return kind == PUT || get32(e + 12) == 0;
}
/* 6 */
static int inside(const u8 *e, u32 f, u32 k) {
    if (e[1] >= f) return 0;
    if (e[0] <= DELETE) return get16(e + 8) < k;
    return e[0] != P || (get16(e + 8) < f && get16(e + 8) != e[1]);
}
/* 10: `before` is the kind of the transaction's last entry, 0 where none is held */
static int takes(u32 kind, u32 before) {
    if (kind <= CC) return before <= DELETE;
    if (kind == CP) return before == P;
    return before >= PUT && before <= P;
}

/* ---- the test of a lot and of an image */

static int section_fits(const u8 *streams, u32 f, u32 k, u32 closed, const u8 *held, u32 count, struct chains *c) {
    u32 stream = 0, epoch = 0;
    clear(c);
    for (u32 i = 0; i < count; i++) {
        const u8 *e = held + i * PLACE;
        if (e[0] > A || !fields_fit(e) || get16(e + 2) != 0 || e[10] != 0 || e[11] > 1 || !inside(e, f, k)) return 0;
        if (e[1] < stream) return 0;
        if (e[1] > stream) { stream = e[1]; epoch = 0; }
        u32 own = get32(e + 16), t = get32(e + 4);
        if (own < 1 || own < epoch || own > get32(streams + stream * 8 + 4)) return 0;
        epoch = own;
        u32 before = last(c, held, stream, t);
        u32 kind = before < MOST ? held[before * PLACE] : 0;
        if (!takes(e[0], kind)) return 0;
        if (e[0] >= CC && own <= closed) return 0;
        if (e[11] && (e[0] != P || own > closed || kind != 0)) return 0;
        add(c, i, stream, t);
    }
    return 1;
}

static int account_fits(u32 account, u32 f, u32 k) {
    return account >= 1 && account <= 65535 && f >= 1 && f <= 8 && k >= 1 && k <= 128;
}
static int streams_fit(const u8 *streams, u32 f, u32 closed) {
    for (u32 i = 0; i < f; i++)
        if (get16(streams + i * 8 + 2) != 0 || get32(streams + i * 8 + 4) <= closed) return 0;
    return 1;
}

struct look { u32 account, f, k, held, closed; struct chains chains; };
enum { IS_FREE, IS_DAMAGED, HOLDS };

static int look_at(const u8 *lot, struct look *l) {
    if (memcmp(lot, "FREE", 4) == 0) return IS_FREE;
    if (memcmp(lot, "OPEN", 4) != 0) return IS_DAMAGED;
    l->account = get16(lot + 4); l->f = lot[6]; l->k = get16(lot + 8); l->held = get16(lot + 10); l->closed = get32(lot + 12);
    if (!account_fits(l->account, l->f, l->k) || lot[7] != 0 || l->held > MOST) return IS_DAMAGED;
    if (!streams_fit(lot + STREAMS, l->f, l->closed)) return IS_DAMAGED;
    if (!section_fits(lot + STREAMS, l->f, l->k, l->closed, lot + HELD, l->held, &l->chains)) return IS_DAMAGED;
    return HOLDS;
}

/* 1, 2, 3 */
static u32 find(const u8 *memory, size_t len, u32 lots, u32 lot, u32 account, struct look *l) {
    if (lots < 1 || lots > 16 || len != (size_t)lots * LOT || lot >= lots) return NO_SUCH_LOT;
    int state = look_at(memory + (size_t)lot * LOT, l);
    if (state == IS_DAMAGED) return DAMAGED;
    return state == HOLDS && l->account == account ? 0 : NOT_THIS;
}

/* ---- the calls */

u64 NAME(start)(u8 *memory, size_t len, u32 lots) {
    if (lots < 1 || lots > 16 || len != (size_t)lots * LOT) return NO_SUCH_LOT;
    for (u32 i = 0; i < lots; i++) memcpy(memory + (size_t)i * LOT, "FREE", 4);
    return 0;
}

/* 1, 2, then 13 and 14 by what is answered: the lowest free lot or 16, and whether the account is open */
static u32 look_around(const u8 *memory, size_t len, u32 lots, u32 account, u32 *free_lot, int *is_open) {
    struct look l;
    if (lots < 1 || lots > 16 || len != (size_t)lots * LOT) return NO_SUCH_LOT;
    *free_lot = 16;
    *is_open = 0;
    for (u32 i = 0; i < lots; i++) {
        int state = look_at(memory + (size_t)i * LOT, &l);
        if (state == IS_DAMAGED) return DAMAGED;
        if (state == IS_FREE && *free_lot == 16) *free_lot = i;
        if (state == HOLDS && l.account == account) *is_open = 1;
    }
    return 0;
}

static void write_head(u8 *lot, u32 account, u32 f, u32 k, u32 held, u32 closed) {
    memcpy(lot, "OPEN", 4);
    put16(lot + 4, account); put16(lot + 6, f); put16(lot + 8, k); put16(lot + 10, held); put32(lot + 12, closed);
    memset(lot + RECORDS, 0, LOT - RECORDS);
}

u64 NAME(open)(u8 *memory, size_t len, u32 lots, u32 account, u32 f, u32 k) {
    u32 lot;
    int is_open;
    u32 r = look_around(memory, len, lots, account, &lot, &is_open);
    if (r) return r;
    if (!account_fits(account, f, k)) return UNFIT_ACCOUNT;
    if (is_open) return ALREADY_OPEN;
    if (lot == 16) return NO_FREE_LOT;
    u8 *at = memory + (size_t)lot * LOT;
    write_head(at, account, f, k, 0, 0);
    for (u32 i = 0; i < 8; i++) { put32(at + STREAMS + i * 8, 0); put32(at + STREAMS + i * 8 + 4, 1); }
    return answer(0, lot, 0);
}

u64 NAME(deliver)(u8 *memory, size_t len, u32 lots, u32 lot, u32 account, const u8 *entry, size_t entry_len) {
    struct look l;
    u32 r = find(memory, len, lots, lot, account, &l);
    if (r) return r;
    if (entry_len != 16) return LENGTH;
    if (!fields_fit(entry) || get16(entry + 10) != 0) return UNFIT;
    if (!inside(entry, l.f, l.k)) return OUTSIDE;
    u8 *at = memory + (size_t)lot * LOT, *stream = at + STREAMS + entry[1] * 8, *held = at + HELD;
    u32 next = get16(stream), epoch = get32(stream + 4), distance = (get16(entry + 2) - next) & 65535;
    if (distance >= 32768) return SEEN;
    if (distance > 0) return GAP;
    if (entry[0] == MARK) {
        if (get32(entry + 4) != epoch) return WRONG_MARK;
        put32(stream + 4, epoch + 1);
    } else {
        u32 before = last(&l.chains, held, entry[1], get32(entry + 4));
        if (!takes(entry[0], before < MOST ? held[before * PLACE] : 0)) return OUT_OF_TURN;
        if (l.held == MOST) return FULL;
        u32 i = l.held;
        while (i > 0 && held[(i - 1) * PLACE + 1] > entry[1]) i--;
        memmove(held + (i + 1) * PLACE, held + i * PLACE, (l.held - i) * PLACE);
        memcpy(held + i * PLACE, entry, 16);
        put16(held + i * PLACE + 2, 0);
        put32(held + i * PLACE + 16, epoch);
        put16(at + 10, l.held + 1);
    }
    put16(stream, next + 1);
    return 0;
}

enum { STAY, FREE, INSTALL, FLAG };

static void apply(u8 *records, const u8 *held, const u16 *after, u32 i) {
    for (; i < MOST; i = after[i]) {
        const u8 *e = held + i * PLACE;
        u8 *record = records + (e[1] * 128 + get16(e + 8)) * RECORD;
        if (e[0] == PUT) { record[0] = 1; memcpy(record + 1, e + 12, 4); }
        if (e[0] == DELETE) record[0] = 0;
    }
}

u64 NAME(close)(u8 *memory, size_t len, u32 lots, u32 lot, u32 account, u8 *list, size_t list_len) {
    struct look l;
    u32 r = find(memory, len, lots, lot, account, &l);
    if (r) return r;
    if (list_len < 2048) return TOO_SHORT;
    u8 *at = memory + (size_t)lot * LOT, *records = at + RECORDS;
    u32 n = l.closed + 1, missing = 0, how_many = 0;
    for (u32 i = 0; i < l.f; i++)
        if (get32(at + STREAMS + i * 8 + 4) <= n) { missing |= 1u << i; how_many++; }
    if (missing) return answer(MISSING, missing, how_many);

    u8 held[MOST * PLACE];                            /* as they stood when the call began */
    u16 first[MOST], end[MOST], after[MOST];          /* of each entry: its transaction's first; of that one: the last; the next */
    u8 verdict[MOST];                                 /* of each transaction's first entry */
    u32 count = l.held, pieces = 0, kept = 0;
    memcpy(held, at + HELD, count * PLACE);
    clear(&l.chains);
    for (u32 i = 0; i < count; i++) {
        const u8 *e = held + i * PLACE;
        if (get32(e + 16) > n) continue;
        u32 before = last(&l.chains, held, e[1], get32(e + 4));
        after[i] = MOST;
        if (before < MOST) { first[i] = first[before]; after[before] = (u16)i; } else first[i] = (u16)i;
        end[first[i]] = (u16)i;
        add(&l.chains, i, e[1], get32(e + 4));
    }
    for (u32 i = 0; i < count; i++) {
        const u8 *e = held + i * PLACE;
        if (get32(e + 16) > n || first[i] != i) continue;
        const u8 *z = held + end[i] * PLACE;
        verdict[i] = STAY;
        if (z[0] == A) verdict[i] = FREE;
        if (z[0] == CC) verdict[i] = INSTALL;
        if (z[0] == CP) verdict[i] = e[11] ? FREE : INSTALL;
        if (z[0] == P && !z[11]) {
            u32 c = last(&l.chains, held, get16(z + 8), get32(z + 4));
            if (c < MOST && held[c * PLACE] == CC) verdict[i] = FLAG;
        }
    }
    for (u32 from = 0, to; from < count; from = to) { /* one stream after the other */
        for (to = from; to < count && held[to * PLACE + 1] == held[from * PLACE + 1]; to++) continue;
        for (u32 wanted = INSTALL; wanted <= FLAG; wanted++)
            for (u32 i = from; i < to; i++) {
                const u8 *e = held + i * PLACE;
                if (get32(e + 16) > n || verdict[first[i]] != wanted || end[first[i]] != i) continue;
                apply(records, held, after, first[i]);
                put32(list + pieces * 8, e[1]);
                put32(list + pieces * 8 + 4, get32(e + 4));
                pieces++;
            }
    }
    for (u32 i = 0; i < count; i++) {
        const u8 *e = held + i * PLACE;
        u32 v = get32(e + 16) > n ? STAY : verdict[first[i]];
        if (v == FREE || v == INSTALL || (v == FLAG && e[0] != P)) continue;
        memcpy(at + HELD + kept * PLACE, e, PLACE);
        if (v == FLAG) at[HELD + kept * PLACE + 11] = 1;
        kept++;
    }
    put16(at + 10, kept);
    put32(at + 12, n);
    return answer(0, pieces, 0);
}

u64 NAME(read)(const u8 *memory, size_t len, u32 lots, u32 lot, u32 account, u32 fragment, u32 key) {
    struct look l;
    u32 r = find(memory, len, lots, lot, account, &l);
    if (r) return r;
    if (fragment >= l.f || key >= l.k) return OUTSIDE;
    const u8 *record = memory + (size_t)lot * LOT + RECORDS + (fragment * 128 + key) * RECORD;
    return record[0] ? answer(0, 1, get32(record + 1)) : 0;
}

u64 NAME(save)(const u8 *memory, size_t len, u32 lots, u32 lot, u32 account, u8 *image, size_t image_len) {
    struct look l;
    u32 r = find(memory, len, lots, lot, account, &l);
    if (r) return r;
    if (image_len < LONGEST) return TOO_SHORT;
    const u8 *at = memory + (size_t)lot * LOT;
    u8 *p = image;
    u32 records = 0;
    memcpy(p, at + STREAMS, l.f * 8);
    p += l.f * 8;
    for (u32 i = 0; i < l.f; i++)
        for (u32 k = 0; k < l.k; k++) {
            const u8 *record = at + RECORDS + (i * 128 + k) * RECORD;
            if (!record[0]) continue;
            put16(p, i); put16(p + 2, k); memcpy(p + 4, record + 1, 4);
            p += 8;
            records++;
        }
    memcpy(p, at + HELD, l.held * PLACE);
    p += l.held * PLACE;
    put16(p, l.account); put16(p + 2, l.f); put16(p + 4, l.k); put16(p + 6, records); put16(p + 8, l.held); put16(p + 10, 0);
    put32(p + 12, l.closed); put32(p + 16, (u32)(p + TRAILER - image)); memcpy(p + 20, "EPB1", 4);
    return answer(0, (u32)(p + TRAILER - image), 0);
}

/* the account of the image that ends the data, or 0 where it is not accepted; `image` is where it begins */
static u32 judge(const u8 *data, size_t len, const u8 **image) {
    struct chains c;
    if (len < TRAILER) return 0;
    const u8 *t = data + len - TRAILER;
    u32 account = get16(t), f = t[2], k = get16(t + 4), records = get16(t + 6), held = get16(t + 8), closed = get32(t + 12);
    if (memcmp(t + 20, "EPB1", 4) != 0 || !account_fits(account, f, k) || t[3] != 0 || get16(t + 10) != 0 || held > MOST) return 0;
    u32 length = f * 8 + records * 8 + held * PLACE + TRAILER;
    if (get32(t + 16) != length || length > len) return 0;
    const u8 *p = data + len - length;
    *image = p;
    if (!streams_fit(p, f, closed)) return 0;
    for (u32 i = 0, before = 0; i < records; i++) {
        const u8 *e = p + f * 8 + i * 8;
        u32 place = e[0] * 128u + get16(e + 2) + 1;
        if (e[0] >= f || e[1] != 0 || get16(e + 2) >= k || place <= before) return 0;
        before = place;
    }
    if (!section_fits(p, f, k, closed, p + f * 8 + records * 8, held, &c)) return 0;
    return account;
}

u64 NAME(load)(u8 *memory, size_t len, u32 lots, const u8 *data, size_t data_len) {
    const u8 *p = 0;
    u32 lot, account = judge(data, data_len, &p);
    int is_open;
    u32 r = look_around(memory, len, lots, account, &lot, &is_open);
    if (r) return r;
    if (account == 0) return NOT_ACCEPTED;
    if (is_open) return ALREADY_OPEN;
    if (lot == 16) return NO_FREE_LOT;
    u8 *at = memory + (size_t)lot * LOT;
    const u8 *t = data + data_len - TRAILER;
    u32 f = t[2], records = get16(t + 6), held = get16(t + 8);
    write_head(at, account, f, get16(t + 4), held, get32(t + 12));
    memcpy(at + STREAMS, p, f * 8);
    p += f * 8;
    for (u32 i = 0; i < records; i++, p += 8) {
        u8 *record = at + RECORDS + (p[0] * 128 + get16(p + 2)) * RECORD;
        record[0] = 1;
        memcpy(record + 1, p + 4, 4);
    }
    memcpy(at + HELD, p, held * PLACE);
    return answer(0, lot, 0);
}

u64 NAME(drop)(u8 *memory, size_t len, u32 lots, u32 lot, u32 account) {
    struct look l;
    u32 r = find(memory, len, lots, lot, account, &l);
    if (r == NO_SUCH_LOT || r == NOT_THIS) return r;
    memcpy(memory + (size_t)lot * LOT, "FREE", 4);
    return 0;
}

u64 NAME(overview)(const u8 *memory, size_t len, u32 lots, u8 *rows, size_t rows_len) {
    struct look l;
    if (lots < 1 || lots > 16 || len != (size_t)lots * LOT) return NO_SUCH_LOT;
    if (rows_len < (size_t)lots * 16) return TOO_SHORT;
    for (u32 i = 0; i < lots; i++) {
        int state = look_at(memory + (size_t)i * LOT, &l);
        u8 *row = rows + i * 16;
        put32(row, state == HOLDS ? l.account : 0);
        put32(row + 4, state == HOLDS ? l.closed : 0);
        put32(row + 8, state == HOLDS ? l.held : 0);
        put32(row + 12, state == IS_DAMAGED);
    }
    return 0;
}
