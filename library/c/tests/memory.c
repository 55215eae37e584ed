/* Any memory may be lent: every export with random bytes, damaged records and good ones, rooms of every length around each limit, and lengths
 * of 0. No call traps, none writes outside what it is lent or into what it only reads, and a refused one leaves every byte.
 * usage: memory CALLS [exact]     exact: no guards, for valgrind. Exit status: 0 all well; 1 a byte was changed; 2 bad usage. */
#include "records.h"

/* ---- one call of each export */

static uint32_t receiver_new(void) { lend_receiver(1, 1), remember(); return m17_receiver_new(window, ring, numbers, levels, any_rate()); }
static uint32_t receiver_feed(void) {
    size_t count = any_count(), room = around(192, 400);
    lend_receiver(1, 1);
    int16_t *samples = lend_samples(count);
    float *symbols = lend_floats(room, 1);
    uint64_t *told = lend_numbers(5);
    float *gain = lend_floats(1, 1);
    remember();
    return m17_receiver_feed(window, ring, numbers, levels, samples, count, symbols, room, told, gain);
}
static uint32_t receiver_reply(void) { lend_receiver(0, 1), remember(); return m17_receiver_reply(window, ring, numbers, levels, (uint32_t)below(3)); }
static uint32_t receiver_carrier(void) { lend_receiver(0, 0), remember(); return m17_receiver_carrier(window, numbers, levels); }
static uint32_t sender_new(void) { lend_sender(1), remember(); return m17_sender_new(window, ring, numbers, any_rate()); }
static uint32_t sender_preamble(void) { lend_sender(1), remember(); return m17_sender_preamble(window, ring, numbers, (uint32_t)below(3), (uint8_t)any()); }
static uint32_t sender_symbols(void) {
    size_t count = around(192, 400);
    lend_sender(1);
    float *symbols = lend_symbols(count);
    remember();
    return m17_sender_symbols(window, ring, numbers, (uint32_t)below(3), symbols, count);
}
static uint32_t sender_end(void) { lend_sender(1), remember(); return m17_sender_end(window, ring, numbers); }
static uint32_t sender_no_frame(void) { lend_sender(1), remember(); return m17_sender_no_frame(window, ring, numbers); }
static uint32_t sender_read(void) {
    size_t room = around(below(2) ? 1920 : 4000, 5000);
    lend_sender(0);
    int16_t *out = lend(2 * room, 1);
    fill(out, 2 * room);
    uint64_t *told = lend_numbers(1);
    remember();
    return m17_sender_read(window, ring, numbers, out, room, told);
}
static uint32_t sender_update(void) { lend_sender(0), remember(); return m17_sender_update(window, ring, numbers, any_number(), any_number(), any_number()); }
static uint32_t sender_run(void) {
    lend_sender(0);
    uint64_t *told = lend_numbers(1);
    remember();
    return m17_sender_run(window, ring, numbers, told);
}
static uint32_t accepts(void) {
    float *symbols = below(2) ? lend_floats(192, 0) : lend_symbols(192);
    remember();
    return m17_accepts((uint32_t)any_number(), symbols);
}
static uint32_t line(void) {
    float *symbols = lend_floats(192, 0);
    uint8_t *to = lend(97, 1);
    fill(to, 97), remember();
    m17_line(symbols, to);
    return 0;
}
static uint32_t line_symbols(void) {
    uint8_t *from = lend_copy(text + 97 * below(8), 97, 0);
    if (below(2)) from[below(97)] = (uint8_t)any();
    float *symbols = lend_floats(192, 1);
    remember();
    uint32_t good = m17_line_symbols(from, symbols);
    return good == 1 ? 0 : M17_REFUSED + 17; /* a bad line leaves the symbols */
}
static uint32_t bit_errors(void) {
    size_t a = around(184, 300), b = below(2) ? a : around(184, 300);
    float *sent = below(2) ? lend_floats(a, 0) : lend_symbols(a);
    float *received = lend_floats(b, 0);
    uint64_t *told = lend_numbers(1);
    remember();
    return m17_bit_errors(sent, a, received, b, told);
}
static uint32_t replay(void) {
    size_t count = below(4) ? (size_t)below(6000) : any_count(), room = around(192, 400);
    int16_t *recording = lend_samples(count);
    float *symbols = lend_floats(room, 1);
    uint64_t *told = lend_numbers(4);
    float *gain = lend_floats(1, 1);
    remember();
    return m17_replay(any_rate(), recording, count, below(4) ? below(count + 3) : any_number(), symbols, room, told, gain);
}
static uint32_t list(void) {
    size_t count = below(200) ? (size_t)below(5000) : 65534 + (size_t)below(5), offers = (size_t)below(4), replies = (size_t)below(5);
    size_t numbers_room = around(5 * offers, 30), symbols_room = around(192 * offers, 1000);
    int16_t *recording = lend_samples(count);
    uint8_t *replied = lend(replies, 0);
    fill(replied, replies);
    uint64_t *to = lend_numbers(numbers_room);
    float *symbols = lend_floats(symbols_room, 1);
    uint64_t *told = lend_numbers(1);
    remember();
    return m17_list(any_rate(), recording, count, replied, replies, to, numbers_room, symbols, symbols_room, told);
}
static uint32_t check(void) {
    size_t bytes = below(2) ? 97 * (size_t)below(5) : (size_t)below(500), padding = below(4) ? (size_t)below(50) : (size_t)any_number();
    size_t count = any_count();
    uint8_t *lines = lend(bytes, 0);
    for (size_t i = 0; i < bytes; i++) lines[i] = text[i % sizeof text];
    if (bytes && below(4) == 0) lines[below(bytes)] = (uint8_t)any();
    int16_t *samples = lend_samples(count);
    uint64_t *told = lend_numbers(1);
    remember();
    uint32_t code = m17_check(padding, lines, bytes, samples, count, told);
    memcpy(places[2].was, places[2].whole, places[2].guard + 8); /* every answer writes the number */
    return code;
}
static uint32_t report_new(void) {
    struct m17_report r = any_report();
    uint64_t *n = lend_copy(r.numbers, 416, 1);
    float *g = lend_copy(r.gains, 16, 1);
    remember();
    return m17_report_new(n, g);
}
static uint32_t report_add(void) {
    struct m17_report r = any_report();
    size_t count = below(2) ? (size_t)below(5000) : any_count();
    uint64_t *n = lend_copy(r.numbers, 416, 1);
    float *g = lend_copy(r.gains, 16, 1);
    int16_t *recording = lend_samples(count);
    remember();
    return m17_report_add(n, g, any_rate(), recording, count);
}
static uint32_t report_merge(void) {
    struct m17_report r = any_report(), o = any_report();
    uint64_t *n = lend_copy(r.numbers, 416, 1);
    float *g = lend_copy(r.gains, 16, 1);
    uint64_t *m = lend_copy(o.numbers, 416, 0);
    float *h = lend_copy(o.gains, 16, 0);
    remember();
    return m17_report_merge(n, g, m, h);
}
static uint32_t desk_new(void) { lend_desk(1, 1, 1), remember(); return m17_desk_new(window, ring, numbers, levels, opened); }
static uint32_t desk_open(void) { lend_desk(1, 1, 1), remember(); return m17_desk_open(window, ring, numbers, levels, opened, any_seat(), any_rate()); }
static uint32_t desk_close(void) { lend_desk(0, 0, 1), remember(); return m17_desk_close(window, ring, numbers, levels, opened, any_seat()); }
static uint32_t desk_feed(void) {
    size_t count = any_count(), room = around(192, 400);
    lend_desk(1, 1, 0);
    int16_t *samples = lend_samples(count);
    float *symbols = lend_floats(room, 1);
    uint64_t *told = lend_numbers(5);
    float *gain = lend_floats(1, 1);
    remember();
    return m17_desk_feed(window, ring, numbers, levels, opened, any_seat(), samples, count, symbols, room, told, gain);
}
static uint32_t desk_reply(void) { lend_desk(0, 1, 0), remember(); return m17_desk_reply(window, ring, numbers, levels, opened, any_seat(), (uint32_t)below(3)); }
static uint32_t desk_carrier(void) { lend_desk(0, 0, 0), remember(); return m17_desk_carrier(window, ring, numbers, levels, opened, any_seat()); }
static uint32_t desk_list(void) {
    lend_desk(0, 0, 0);
    if (below(2)) for (int seat = 0; seat < 8; seat++) opened[seat] = below(2);
    uint64_t *lines = lend_numbers(24);
    remember();
    return m17_desk_list(window, ring, numbers, levels, opened, lines);
}

/* ---- the calls, by their share of a thousand, and what came of them */

static struct { const char *name; uint32_t (*call)(void); int share; long calls, refused; } exports[] = {
    {"m17_receiver_new", receiver_new, 20, 0, 0}, {"m17_receiver_feed", receiver_feed, 150, 0, 0},
    {"m17_receiver_reply", receiver_reply, 80, 0, 0}, {"m17_receiver_carrier", receiver_carrier, 60, 0, 0},
    {"m17_sender_new", sender_new, 20, 0, 0}, {"m17_sender_preamble", sender_preamble, 30, 0, 0},
    {"m17_sender_symbols", sender_symbols, 60, 0, 0}, {"m17_sender_end", sender_end, 20, 0, 0},
    {"m17_sender_no_frame", sender_no_frame, 20, 0, 0}, {"m17_sender_read", sender_read, 50, 0, 0},
    {"m17_sender_update", sender_update, 60, 0, 0}, {"m17_sender_run", sender_run, 50, 0, 0},
    {"m17_accepts", accepts, 30, 0, 0}, {"m17_line", line, 30, 0, 0},
    {"m17_line_symbols", line_symbols, 40, 0, 0}, {"m17_bit_errors", bit_errors, 40, 0, 0},
    {"m17_replay", replay, 30, 0, 0}, {"m17_list", list, 10, 0, 0},
    {"m17_check", check, 40, 0, 0}, {"m17_report_new", report_new, 10, 0, 0},
    {"m17_report_add", report_add, 30, 0, 0}, {"m17_report_merge", report_merge, 50, 0, 0},
    {"m17_desk_new", desk_new, 5, 0, 0}, {"m17_desk_open", desk_open, 10, 0, 0},
    {"m17_desk_close", desk_close, 10, 0, 0}, {"m17_desk_feed", desk_feed, 20, 0, 0},
    {"m17_desk_reply", desk_reply, 10, 0, 0}, {"m17_desk_carrier", desk_carrier, 10, 0, 0},
    {"m17_desk_list", desk_list, 5, 0, 0},
};
enum { EXPORTS = sizeof exports / sizeof *exports };

int main(int count, char **words) {
    static long seen[128];
    char *end = "";
    long calls = count > 1 ? strtol(words[1], &end, 10) : -1;
    exact = count == 3 && strcmp(words[2], "exact") == 0;
    if (count < 2 || count > 3 || *end || calls < 0 || (count == 3 && !exact)) {
        fputs("usage: memory CALLS [exact]\n", stderr);
        return 2;
    }
    prepare();
    for (long i = 0; i < calls; i++) {
        int which = 0;
        for (int share = (int)below(1000); share >= exports[which].share; which++) share -= exports[which].share;
        uint32_t code = exports[which].call(), number = code >= M17_REFUSED ? M17_NUMBER(code) : 0;
        int wrong = judge(code >= M17_REFUSED);
        if (wrong >= 0 || number > 74) {
            printf("%s, call %ld, code %u: lent place %d is not as it has to be\n", exports[which].name, i, code, wrong);
            return 1;
        }
        exports[which].calls++, exports[which].refused += code >= M17_REFUSED, seen[number]++;
        give_back();
    }
    for (int i = 0; i < EXPORTS; i++) printf("%-22s %9ld calls, %9ld refused\n", exports[i].name, exports[i].calls, exports[i].refused);
    for (int i = 1; i < 128; i++) if (seen[i]) printf("refusal %2d: %ld\n", i, seen[i]);
    printf("%ld calls: nothing trapped, nothing written outside what was lent, every byte left by the refused ones\n", calls);
    return 0;
}
