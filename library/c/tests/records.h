/* What the exports are lent: random bytes, good records, and good ones with a few things damaged. */
#ifndef RECORDS_H
#define RECORDS_H
#include "lent.h"
#include "sound.h"
#include <math.h>

enum { POOL = 96 };

static struct m17_receiver receivers[2 * POOL];
static struct m17_sender senders[2 * POOL];
static struct m17_report reports[8];
static int16_t sound[2][SOUND];
static size_t heard[2];
static uint8_t text[8 * 97];

static uint32_t any_rate(void) {
    switch (below(8)) {
    case 0: return (uint32_t)any();
    case 1: return 44100;
    default: return below(2) ? 48000 : 24000;
    }
}

/* A length around a limit, up to `most`: the limit itself, within two of it, 0, 1 or any. */
static size_t around(size_t limit, size_t most) {
    switch (below(8)) {
    case 0: return (size_t)below(2);
    case 1: return (size_t)below(most + 1);
    case 2:
    case 3: return limit < 2 ? limit + (size_t)below(3) : limit + (size_t)below(5) - 2;
    default: return limit;
    }
}

static uint64_t any_number(void) {
    static const uint64_t limits[] = {0, 1, 2, 4, 5, 81, 162, 192, 254, 255, 256, 960, 1920, 2000, 4000, 65535, 16777216, 1ull << 32, 1ull << 63};
    switch (below(4)) {
    case 0: return any();
    case 1: return below(300);
    default: return limits[below(sizeof limits / sizeof *limits)] + below(3) - 1;
    }
}

/* ---- good records: states of a receiver along a transmission, of a sender in one, reports of recordings */

static void prepare_rate(int which) {
    uint32_t rate = which ? 24000 : 48000;
    heard[which] = transmit(rate, which ? 40 : 20, sound[which]);
    static struct m17_receiver r;
    struct m17_told told = {0, 0, 0, 0, 0, 0};
    float room[192];
    size_t at = 0;
    m17_start_receiver(&r, rate);
    for (int i = 0; i < POOL; i++) {
        size_t step = heard[which] / POOL;
        receivers[which * POOL + i] = r;
        uint32_t code = m17_feed(&r, sound[which] + at, step, room, &told);
        at += told.fed;
        if (code == M17_QUIET) continue;
        if (i + 1 < POOL) receivers[which * POOL + ++i] = r; /* one that owes a reply */
        m17_reply(&r, (uint32_t)below(2));
    }
    static struct m17_sender s;
    static int16_t out[4000];
    uint64_t count = 0;
    float symbols[192] = {0};
    m17_start_sender(&s, rate);
    for (int i = 0; i < POOL; i++) {
        senders[which * POOL + i] = s;
        switch (below(6)) {
        case 0: m17_preamble(&s, 0, (uint8_t)below(4)); break;
        case 1: m17_symbols(&s, 0, symbols); break;
        case 2: m17_end(&s); break;
        case 3: m17_update(&s, below(1000), 4000, below(100)); break;
        case 4: m17_run(&s, &count); break;
        default: m17_read(&s, out, (size_t)below(2000), &count);
        }
    }
}

static void prepare(void) {
    for (int which = 0; which < 2; which++) prepare_rate(which);
    for (int i = 0; i < 8; i++) {
        m17_start_report(&reports[i]);
        if (i) m17_add(&reports[i], i & 1 ? 48000 : 24000, sound[!(i & 1)], heard[!(i & 1)] / (size_t)i);
    }
    float symbols[192];
    for (int i = 0; i < 8; i++) {
        for (int j = 0; j < 192; j++) symbols[j] = below(2) ? 1.0f : -1.0f;
        m17_line(symbols, text + 97 * i);
    }
}

/* ---- lent records: random bytes, a good record, or one with a few things damaged */

static void damage(uint64_t *numbers, size_t count, float *floats, size_t values, int16_t *samples, size_t places) {
    for (uint64_t times = below(4); times; times--) switch (below(4)) {
        case 0: put_pattern(&floats[below(values)]); break;
        case 1: samples[below(places)] ^= (int16_t)(1 << below(15)); break;
        default: numbers[below(count)] = any_number();
        }
}

static void any_receiver(int16_t *window, float *ring, uint64_t *numbers, float *levels) {
    if (below(8) == 0) {
        fill(window, 324), fill(ring, 7680), fill(numbers, 112), fill(levels, 12);
        if (below(2)) numbers[0] = any_rate();
        return;
    }
    struct m17_receiver r = receivers[below(2 * POOL)];
    if (below(2)) damage(r.numbers, 14, r.ring, 1920, r.window, 162);
    if (below(8) == 0) fill(r.levels, sizeof r.levels);
    memcpy(window, r.window, 324), memcpy(ring, r.ring, 7680), memcpy(numbers, r.numbers, 112), memcpy(levels, r.levels, 12);
}

static int16_t *window;
static float *ring, *levels;
static uint64_t *numbers;

static void lend_receiver(int changes, int levels_change) {
    window = lend(324, changes), ring = lend(7680, changes), numbers = lend(112, levels_change), levels = lend(12, levels_change);
    any_receiver(window, ring, numbers, levels);
}

static void lend_sender(int changes) {
    struct m17_sender s = senders[below(2 * POOL)];
    if (below(8) == 0) {
        fill(&s, sizeof s);
        if (below(2)) s.numbers[0] = any_rate();
    } else if (below(2)) {
        damage(s.numbers, 13, s.window, 81, s.store, 4000);
    }
    window = lend_copy(s.store, 8000, changes), ring = lend_copy(s.window, 324, changes), numbers = lend_copy(s.numbers, 104, 1);
}

static struct m17_report any_report(void) {
    struct m17_report r = reports[below(8)];
    if (below(8) == 0) fill(&r, sizeof r);
    if (below(3) == 0) r.numbers[below(52)] = any_number();
    if (below(8) == 0) put_pattern(&r.gains[below(4)]);
    return r;
}

static uint64_t *opened;

/* Which of a desk's arrays a call may change: windows and rings, numbers and levels, opened. */
static void lend_desk(int wholes, int parts, int flags) {
    window = lend(2592, wholes), ring = lend(61440, wholes), numbers = lend(896, parts), levels = lend(96, parts), opened = lend(64, flags);
    for (int seat = 0; seat < 8; seat++) {
        any_receiver(window + 162 * seat, ring + 1920 * seat, numbers + 14 * seat, levels + 3 * seat);
        opened[seat] = below(16) ? below(2) : any();
    }
}

static uint64_t any_seat(void) {
    return below(16) ? below(8) : below(4) ? 8 : any();
}

/* Samples of a transmission, of noise or of silence; where a call only reads them. */
static int16_t *lend_samples(size_t count) {
    int which = (int)below(2);
    if (below(3)) {
        size_t from = below(heard[which] > count ? heard[which] - count : 1);
        int16_t *to = lend(2 * count, 0);
        for (size_t i = 0; i < count; i++) to[i] = from + i < SOUND ? sound[which][from + i] : 0;
        return to;
    }
    int16_t *to = lend(2 * count, 0);
    if (below(2)) memset(to, 0, 2 * count);
    else fill(to, 2 * count);
    return to;
}

static float *lend_floats(size_t count, int changes) {
    float *to = lend(4 * count, changes);
    fill(to, 4 * count);
    return to;
}

static float *lend_symbols(size_t count) {
    float *to = lend_floats(count, 0);
    for (size_t i = 0; i < count; i++) to[i] = below(2) ? 1.0f : -1.0f / 3;
    for (uint64_t times = below(3); count && times; times--) {
        static const float wrong[] = {1.5f, -1.5f, HUGE_VALF, -HUGE_VALF, 1, -1};
        float *one = &to[below(count)];
        if (below(4)) *one = wrong[below(6)];
        else put_pattern(one);
    }
    return to;
}

static uint64_t *lend_numbers(size_t count) {
    uint64_t *to = lend(8 * count, 1);
    fill(to, 8 * count);
    return to;
}

static size_t any_count(void) {
    static const size_t limits[] = {0, 12, 48, 480, 624, 1248};
    return around(limits[below(6)], 2000);
}
#endif
