/* Not-a-numbers in lent memory, with every sign and payload, signalling ones among them: what a call leaves keeps its bits. The proofs say of
 * such a place that it still holds a not-a-number, and no more. At both rates: the room after a quiet stretch and past 192 after an offer, the
 * ring's places that a stretch neither reads nor writes, those that 24 kHz does not use, and every float where a call is refused or only reads.
 * usage: patterns ROUNDS. Exit status: 0 all kept; 1 a place was changed; 2 bad usage. */
#include "sound.h"

enum { ROOM = 512 };

static long calls, kept;

static uint32_t bits(const float *of) {
    uint32_t pattern;
    memcpy(&pattern, of, sizeof pattern);
    return pattern;
}

static void fill_patterns(float *to, size_t count) {
    while (count--) put_pattern(to++);
}

static void changed(const char *what, uint32_t rate, size_t at) {
    printf("changed: %s at %u Hz, %zu\n", what, rate, at);
    exit(1);
}

static void same(const void *now, const void *was, size_t bytes, const char *what, uint32_t rate, size_t at) {
    if (memcmp(now, was, bytes)) changed(what, rate, at);
    kept += (long)(bytes / 4);
}

/* Patterns in all of the ring that a stretch of so many samples neither reads nor writes; in none of the used places where a window is due. */
static void lay_in_ring(struct m17_receiver *r, size_t symbol, size_t count) {
    size_t used = 192 * symbol, cursor = r->numbers[2];
    int due = r->numbers[7] && r->numbers[8] <= count;
    for (size_t i = 0; i < 1920; i++) {
        size_t ago = (cursor + used - 1 - i % used) % used;
        int needed = due || ago < 8 * symbol || ago + count >= used;
        if (i >= used || !needed) put_pattern(&r->ring[i]);
    }
}

/* A stretch that is not refused, on a receiver that is then as it would be without the patterns. How many samples went in. */
static size_t hear(struct m17_receiver *r, uint32_t rate, const int16_t *samples, size_t count) {
    static struct m17_receiver good, was;
    static float room[ROOM], before[ROOM];
    size_t symbol = rate == 48000 ? 10 : 5, used = 192 * symbol, cursor = r->numbers[2];
    uint64_t told[5] = {0, 0, 0, 0, 0};
    float gain[1], gain_was[1];
    good = *r;
    lay_in_ring(r, symbol, count);
    fill_patterns(room, ROOM), fill_patterns(gain, 1);
    memcpy(before, room, sizeof room), memcpy(gain_was, gain, sizeof gain);
    was = *r;
    uint32_t code = m17_receiver_feed(r->window, r->ring, r->numbers, r->levels, samples, count, room, ROOM, told, gain);
    calls++;
    if (code >= M17_REFUSED) changed("a stretch is refused", rate, code);
    size_t written = code == M17_QUIET ? 0 : 192;
    same(room + written, before + written, 4 * (ROOM - written), "room", rate, count);
    if (code == M17_QUIET) same(gain, gain_was, 4, "gain", rate, count);
    for (size_t i = 0; i < 1920; i++) {
        int new = i < used && (i + used - cursor) % used < told[0];
        if (!new && bits(&r->ring[i]) != bits(&was.ring[i])) changed("ring", rate, i);
        kept += !new;
        if (!new) r->ring[i] = good.ring[i];
    }
    if (code == M17_QUIET) return told[0];
    was = *r;
    m17_reply(r, (uint32_t)below(2));
    calls++;
    same(r->ring, was.ring, sizeof r->ring, "ring by a reply", rate, 0);
    return told[0];
}

/* Calls that are refused, and queries, on records full of patterns. */
static void refuse(const struct m17_receiver *good, uint32_t rate, const int16_t *samples) {
    static struct m17_receiver r, was;
    static float room[ROOM], before[ROOM];
    uint64_t told[5], told_was[5];
    float gain[1], gain_was[1];
    r = *good;
    fill_patterns(r.levels, 3);
    switch (below(6)) {
    case 0: r.numbers[0] = 44100, fill_patterns(r.ring, 1920); break;
    case 1: r.numbers[4] = 9, fill_patterns(r.ring, 1920); break;
    case 2: r.numbers[4] = 1 + below(4), r.numbers[5] = r.numbers[6] = 1, r.numbers[13] = 0; break;
    case 3: r.numbers[13] = 1, r.numbers[4] = r.numbers[7] = 0; break;
    case 4: r.window[below(41)]++, fill_patterns(r.ring, 1920); break;
    default: fill_patterns(r.ring, 1920);
    }
    fill_patterns(room, ROOM), fill_patterns(gain, 1), fill(told, sizeof told);
    was = r, memcpy(before, room, sizeof room), memcpy(told_was, told, sizeof told), memcpy(gain_was, gain, sizeof gain);
    int call = (int)below(3);
    size_t count = 1 + (size_t)below(100), places = below(4) ? ROOM : (size_t)below(192);
    uint32_t code = call == 0 ? m17_receiver_feed(r.window, r.ring, r.numbers, r.levels, samples, count, room, places, told, gain)
                  : call == 1 ? m17_reply(&r, (uint32_t)below(2)) : m17_carrier(&r);
    calls++;
    if (code < M17_REFUSED && call != 2) return;
    same(&r, &was, sizeof r, "a refused call's record", rate, code);
    same(room, before, sizeof room, "a refused call's room", rate, code);
    same(told, told_was, sizeof told, "a refused call's numbers", rate, code);
    same(gain, gain_was, sizeof gain, "a refused call's gain", rate, code);
}

/* The sender's window: on refusals, on calls that only read it, and in the places that 24 kHz does not use. */
static void send(const struct m17_sender *good, uint32_t rate) {
    static struct m17_sender s, was;
    static int16_t out[4000];
    size_t used = rate == 48000 ? 81 : 41;
    float symbols[192];
    uint64_t told = 7;
    s = *good;
    if (below(2)) fill_patterns(s.window, 81);
    else fill_patterns(s.window + used, 81 - used);
    fill_patterns(symbols, 192);
    was = s;
    int call = (int)below(5);
    uint32_t code = call == 0 ? m17_symbols(&s, 0, symbols) : call == 1 ? m17_read(&s, out, (size_t)below(4000), &told)
                  : call == 2 ? m17_update(&s, 0, below(9), 0) : call == 3 ? m17_run(&s, &told) : m17_end(&s);
    calls++;
    if (code >= M17_REFUSED) same(&s, &was, sizeof s, "a refused call's sender", rate, code);
    else if (call == 4) same(s.window + used, was.window + used, 4 * (81 - used), "the sender's unused window", rate, 0);
    else same(s.window, was.window, sizeof s.window, "the sender's window", rate, 0);
}

int main(int count, char **words) {
    static int16_t sound[SOUND];
    static struct m17_receiver r;
    static struct m17_sender s;
    char *end = "";
    long rounds = count == 2 ? strtol(words[1], &end, 10) : -1;
    if (count != 2 || *end || rounds < 0) {
        fputs("usage: patterns ROUNDS\n", stderr);
        return 2;
    }
    for (uint32_t rate = 48000; rate >= 24000; rate -= 24000) {
        size_t heard = transmit(rate, 20, sound), symbol = rate == 48000 ? 10 : 5;
        m17_start_receiver(&r, rate), m17_start_sender(&s, rate);
        for (size_t at = 0; at < heard;) {
            size_t piece = 1 + (size_t)below(symbol - 1);
            at += hear(&r, rate, sound + at, piece < heard - at ? piece : heard - at);
        }
        for (long i = 0; i < rounds; i++) refuse(&r, rate, sound), send(&s, rate);
    }
    printf("%ld calls, %ld places kept their bits\n", calls, kept);
    return 0;
}
