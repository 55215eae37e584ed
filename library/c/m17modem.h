/* The proved M17 soft modem, for C and C++. Link libm17modem.a: it needs memcpy and memset, keeps no state of its own and calls nothing else,
 * so any number of records may be used at once, each by one thread at a time.
 *
 * The caller owns the memory. A pointer is never null, also where its length is 0, and is aligned for its type; what one call is lent does not
 * overlap. That is all that a caller has to see to: any bytes may be in the memory. What is no record is refused.
 *
 * A code of M17_REFUSED or more is a refusal: M17_NUMBER(code) is its number in documents 01 and 02, M17_PLACE(code) the place of the wrong
 * symbol for 71 to 74. A refused call leaves every lent place as it was; m17_check alone then writes its number all the same.
 *
 *    1 the record is unfit                                   11 a BERT frame whose first eight symbols are not its burst's signs
 *    2 a sample while a reply is owed                        12 a recording of more than 65,536 samples for the slow engine
 *    3 a reply while none is owed                            13 room for the list of offers too small
 *    4 room for fewer than 192 symbols                       14 a sample number 0, or beyond the recording's end
 *    5 the count of samples is at its end                    15 a rate that is neither 48,000 nor 24,000
 *    6 not 192 symbols of a frame, or 184 of a payload       16 a total that would pass 2^63
 *   71 a symbol that is not a number                         17 a bad line of a text to be checked
 *   72 an infinite symbol                                    18 a seat above 7
 *   73 a symbol above 1                                      19 the seat is closed
 *   74 a symbol below -1                                     20 the seat is open
 *    8 fill, capacity or latency above 16,777,216, or a padding count above 122,400
 *    9 a capacity below the fill
 *
 * Of a float that a call leaves, the proofs say the value: that a not-a-number keeps its sign and payload is tested (tests/patterns.c). */
#ifndef M17MODEM_H
#define M17MODEM_H
#include <stddef.h>
#include <stdint.h>
#ifdef __cplusplus
extern "C" {
#endif

enum { M17_QUIET = 0, M17_LSF = 1, M17_BERT = 2, M17_STREAM = 3, M17_PACKET = 4, M17_REFUSED = 100 };
enum { M17_NOTHING = 0, M17_TRANSMISSION_WILL_END = 1, M17_READ_OUTPUT = 2, M17_SET_IDLE = 3, M17_GET_NEXT_FRAME = 4 };
enum { M17_YES = 0, M17_DIFFERS = 1, M17_SHORT = 2, M17_LONG = 3, M17_BAD_LINE = 117 };
#define M17_NUMBER(code) (((code) & 0xFFFFu) - (uint32_t)M17_REFUSED)
#define M17_PLACE(code) ((code) >> 16)

/* A receiver: start one anew for each exercise, or feed it 4,000 zeros between two (2,000 at 24 kHz). */
struct m17_receiver {
    uint64_t numbers[14]; /* rate, filter cursor, ring cursor, count; candidate: kind (0 none), age, taken at;
                             wait: held, left, age, mark; carrier timer: held, end; a reply owed */
    float levels[3];      /* the candidate's diff, gain and shift */
    float ring[1920];     /* filtered values; at 24 kHz the first 960 are used */
    int16_t window[162];  /* the last samples, twice; at 24 kHz the first 82 are used */
};

/* What a stretch of samples tells: `fed` of every stretch that is not refused, the rest of an offer. */
struct m17_told {
    uint64_t fed;      /* samples that went in, the one that brought the offer among them */
    uint64_t sample;   /* at which the frame is due, from 1 */
    uint64_t taken_at; /* at which its burst was taken */
    uint64_t age;      /* at which its wait was set */
    uint64_t replaced; /* 1: a later-listed kind replaced the candidate on the sample that set the wait */
    float gain;        /* what its symbols were divided by */
};

struct m17_sender {
    uint64_t numbers[13]; /* rate, filter cursor; frame: samples, read; padding; idle to be told, an end to be worked out; end to report: held,
                             samples; wish for a frame; latency, fill, capacity */
    float window[81];     /* at 24 kHz the first 41 are used */
    int16_t store[4000];  /* at 24 kHz the first 2,000 are used */
};

/* A month's figures. */
struct m17_report {
    uint64_t numbers[52]; /* totals at 48 kHz from 0 and at 24 kHz from 24, by kind LSF, BERT, Stream, Packet: 0 to 3 offers, 4 to 7 accepted,
                             8 to 11 rejected; 12 to 22 offers at ages 1 to 11; 23 samples with the carrier held. From 48: whether the gains
                             beside are held */
    float gains[4];       /* smallest and largest at 48 kHz, then at 24 kHz; 0 where not held */
};

/* An exercise desk: eight seats, each with a receiver of its own, seat k's at k times its size. */
struct m17_desk {
    uint64_t numbers[112];
    uint64_t opened[8]; /* 0 closed, 1 open */
    float levels[24];
    float rings[15360];
    int16_t windows[1296];
};

/* ---- the archive's functions */

/* 0. Refused: 15. */
uint32_t m17_receiver_new(int16_t window[162], float ring[1920], uint64_t numbers[14], float levels[3], uint32_t rate);
/* Samples up to the first that brings an offer: M17_QUIET, or the offered kind, its symbols in the room's first 192 places.
 * told: fed, sample, taken at, age, replaced; zeros after `fed` where quiet, and gain[0] is then left. Refused: 15, 1, 2, 4, 5. */
uint32_t m17_receiver_feed(int16_t window[162], float ring[1920], uint64_t numbers[14], float levels[3], const int16_t *samples, size_t count,
                           float *room, size_t places, uint64_t told[5], float gain[1]);
/* 0; accepted is 0 for rejected, any other for accepted. Refused: 15, 1, 3. */
uint32_t m17_receiver_reply(const int16_t window[162], const float ring[1920], uint64_t numbers[14], float levels[3], uint32_t accepted);
/* 0 no carrier, 1 a carrier. Refused: 15, 1. */
uint32_t m17_receiver_carrier(const int16_t window[162], const uint64_t numbers[14], const float levels[3]);

/* 0. Refused: 15. */
uint32_t m17_sender_new(int16_t store[4000], float window[81], uint64_t numbers[13], uint32_t rate);
/* The four kinds of frame. bert is 0 for ordinary traffic, any other for a link test; tx_delay has steps of ten milliseconds.
 * 0. Refused: 15, 1; symbols also 6, 71 to 74, and of a link test 11. */
uint32_t m17_sender_preamble(int16_t store[4000], float window[81], uint64_t numbers[13], uint32_t bert, uint8_t tx_delay);
uint32_t m17_sender_symbols(int16_t store[4000], float window[81], uint64_t numbers[13], uint32_t bert, const float *symbols, size_t count);
uint32_t m17_sender_end(int16_t store[4000], float window[81], uint64_t numbers[13]);
uint32_t m17_sender_no_frame(int16_t store[4000], float window[81], uint64_t numbers[13]);
/* 0; told: samples written. Refused: 15, 1. */
uint32_t m17_sender_read(const int16_t store[4000], const float window[81], uint64_t numbers[13], int16_t *out, size_t places, uint64_t *told);
/* 0. Refused: 15, 1, 8, 9. */
uint32_t m17_sender_update(const int16_t store[4000], const float window[81], uint64_t numbers[13], uint64_t fill, uint64_t capacity,
                           uint64_t latency);
/* M17_NOTHING to M17_GET_NEXT_FRAME; told: the samples of M17_TRANSMISSION_WILL_END, 0 or 1 of M17_SET_IDLE. Refused: 15, 1. */
uint32_t m17_sender_run(const int16_t store[4000], const float window[81], uint64_t numbers[13], uint64_t *told);

/* 1 where the first eight symbols, sliced, are the kind's word, else 0: the rule of the program `receive`. */
uint32_t m17_accepts(uint32_t kind, const float symbols[192]);
/* The symbols, sliced, as 96 hexadecimal digits and a line feed. */
void m17_line(const float symbols[192], uint8_t line[97]);
/* 1 and the symbols of a good line; 0 of a bad one, and the symbols are left. */
uint32_t m17_line_symbols(const uint8_t line[97], float symbols[192]);
/* 0; told: in how many bits two payloads of 184 symbols differ. Refused: 6. */
uint32_t m17_bit_errors(const float *sent, size_t sent_count, const float *received, size_t received_count, uint64_t *told);

/* The first offer due at a sample of a recording or after it: 0 none, or its kind, its symbols in the room's first 192 places.
 * told: sample, taken at, age, replaced. Refused: 15, 4, 14. */
uint32_t m17_replay(uint32_t rate, const int16_t *recording, size_t count, uint64_t sample, float *room, size_t places, uint64_t told[4],
                    float gain[1]);
/* The slow engine's list: 0; told: how many offers. Five numbers for each, kind (0 LSF, 1 BERT, 2 Stream, 3 Packet), sample, taken at, age and
 * mark, and 192 symbols. A reply is 0 for rejected, any other for accepted; the offer after the last reply ends the list. Refused: 15, 12, 13. */
uint32_t m17_list(uint32_t rate, const int16_t *recording, size_t count, const uint8_t *replies, size_t replies_count, uint64_t *numbers,
                  size_t numbers_places, float *symbols, size_t symbols_places, uint64_t *told);
/* Whether samples at 48 kHz are so many zeros and what a fresh sender sends of a text of frames: M17_YES, M17_DIFFERS (told: the first sample
 * that is another, from 1), M17_SHORT, M17_LONG, M17_BAD_LINE (told: the line, from 1). Refused: 8, 17. told is 0 where it says nothing. */
uint32_t m17_check(uint64_t padding, const uint8_t *lines, size_t bytes, const int16_t *samples, size_t count, uint64_t *told);

/* 0. */
uint32_t m17_report_new(uint64_t numbers[52], float gains[4]);
/* 0. Refused: 15, 1, 16. */
uint32_t m17_report_add(uint64_t numbers[52], float gains[4], uint32_t rate, const int16_t *recording, size_t count);
/* 0. Refused: 1, 16. */
uint32_t m17_report_merge(uint64_t numbers[52], float gains[4], const uint64_t other_numbers[52], const float other_gains[4]);

/* 0. */
uint32_t m17_desk_new(int16_t windows[1296], float rings[15360], uint64_t numbers[112], float levels[24], uint64_t opened[8]);
/* A call for one seat looks at that seat alone. All are refused with 18, with 1 where the seat's `opened` is neither 0 nor 1, open with 20
 * and 15, the others with 19, and feed, reply and carrier with what the receiver's are; close with what the carrier query is. */
uint32_t m17_desk_open(int16_t windows[1296], float rings[15360], uint64_t numbers[112], float levels[24], uint64_t opened[8], uint64_t seat,
                       uint32_t rate);
uint32_t m17_desk_close(const int16_t windows[1296], const float rings[15360], const uint64_t numbers[112], const float levels[24],
                        uint64_t opened[8], uint64_t seat);
uint32_t m17_desk_feed(int16_t windows[1296], float rings[15360], uint64_t numbers[112], float levels[24], const uint64_t opened[8],
                       uint64_t seat, const int16_t *samples, size_t count, float *room, size_t places, uint64_t told[5], float gain[1]);
uint32_t m17_desk_reply(const int16_t windows[1296], const float rings[15360], uint64_t numbers[112], float levels[24],
                        const uint64_t opened[8], uint64_t seat, uint32_t accepted);
uint32_t m17_desk_carrier(const int16_t windows[1296], const float rings[15360], const uint64_t numbers[112], const float levels[24],
                          const uint64_t opened[8], uint64_t seat);
/* 0; three numbers a seat: 0 closed or 1 open, its count, whether a reply is owed. Refused, by any open seat: 15, 1. */
uint32_t m17_desk_list(const int16_t windows[1296], const float rings[15360], const uint64_t numbers[112], const float levels[24],
                       const uint64_t opened[8], uint64_t lines[24]);

/* ---- the same over the structs */

static inline uint32_t m17_start_receiver(struct m17_receiver *r, uint32_t rate) {
    return m17_receiver_new(r->window, r->ring, r->numbers, r->levels, rate);
}

static inline void m17_tell(struct m17_told *told, const uint64_t numbers[5], const float gain[1]) {
    told->fed = numbers[0];
    told->sample = numbers[1];
    told->taken_at = numbers[2];
    told->age = numbers[3];
    told->replaced = numbers[4];
    told->gain = gain[0];
}

static inline uint32_t m17_feed(struct m17_receiver *r, const int16_t *samples, size_t count, float room[192], struct m17_told *told) {
    uint64_t numbers[5] = {told->fed, told->sample, told->taken_at, told->age, told->replaced};
    float gain[1] = {told->gain};
    uint32_t code = m17_receiver_feed(r->window, r->ring, r->numbers, r->levels, samples, count, room, 192, numbers, gain);
    m17_tell(told, numbers, gain);
    return code;
}

static inline uint32_t m17_reply(struct m17_receiver *r, uint32_t accepted) {
    return m17_receiver_reply(r->window, r->ring, r->numbers, r->levels, accepted);
}

static inline uint32_t m17_carrier(const struct m17_receiver *r) {
    return m17_receiver_carrier(r->window, r->numbers, r->levels);
}

static inline uint32_t m17_start_sender(struct m17_sender *s, uint32_t rate) {
    return m17_sender_new(s->store, s->window, s->numbers, rate);
}

static inline uint32_t m17_preamble(struct m17_sender *s, uint32_t bert, uint8_t tx_delay) {
    return m17_sender_preamble(s->store, s->window, s->numbers, bert, tx_delay);
}

static inline uint32_t m17_symbols(struct m17_sender *s, uint32_t bert, const float symbols[192]) {
    return m17_sender_symbols(s->store, s->window, s->numbers, bert, symbols, 192);
}

static inline uint32_t m17_end(struct m17_sender *s) {
    return m17_sender_end(s->store, s->window, s->numbers);
}

static inline uint32_t m17_no_frame(struct m17_sender *s) {
    return m17_sender_no_frame(s->store, s->window, s->numbers);
}

static inline uint32_t m17_read(struct m17_sender *s, int16_t *out, size_t places, uint64_t *told) {
    return m17_sender_read(s->store, s->window, s->numbers, out, places, told);
}

static inline uint32_t m17_update(struct m17_sender *s, uint64_t fill, uint64_t capacity, uint64_t latency) {
    return m17_sender_update(s->store, s->window, s->numbers, fill, capacity, latency);
}

static inline uint32_t m17_run(struct m17_sender *s, uint64_t *told) {
    return m17_sender_run(s->store, s->window, s->numbers, told);
}

static inline uint32_t m17_start_report(struct m17_report *r) {
    return m17_report_new(r->numbers, r->gains);
}

static inline uint32_t m17_add(struct m17_report *r, uint32_t rate, const int16_t *recording, size_t count) {
    return m17_report_add(r->numbers, r->gains, rate, recording, count);
}

static inline uint32_t m17_merge(struct m17_report *r, const struct m17_report *other) {
    return m17_report_merge(r->numbers, r->gains, other->numbers, other->gains);
}

static inline uint32_t m17_start_desk(struct m17_desk *d) {
    return m17_desk_new(d->windows, d->rings, d->numbers, d->levels, d->opened);
}

static inline uint32_t m17_open_seat(struct m17_desk *d, uint64_t seat, uint32_t rate) {
    return m17_desk_open(d->windows, d->rings, d->numbers, d->levels, d->opened, seat, rate);
}

static inline uint32_t m17_close_seat(struct m17_desk *d, uint64_t seat) {
    return m17_desk_close(d->windows, d->rings, d->numbers, d->levels, d->opened, seat);
}

static inline uint32_t m17_feed_seat(struct m17_desk *d, uint64_t seat, const int16_t *samples, size_t count, float room[192],
                                     struct m17_told *told) {
    uint64_t numbers[5] = {told->fed, told->sample, told->taken_at, told->age, told->replaced};
    float gain[1] = {told->gain};
    uint32_t code = m17_desk_feed(d->windows, d->rings, d->numbers, d->levels, d->opened, seat, samples, count, room, 192, numbers, gain);
    m17_tell(told, numbers, gain);
    return code;
}

static inline uint32_t m17_reply_seat(struct m17_desk *d, uint64_t seat, uint32_t accepted) {
    return m17_desk_reply(d->windows, d->rings, d->numbers, d->levels, d->opened, seat, accepted);
}

static inline uint32_t m17_seat_carrier(const struct m17_desk *d, uint64_t seat) {
    return m17_desk_carrier(d->windows, d->rings, d->numbers, d->levels, d->opened, seat);
}

static inline uint32_t m17_list_seats(const struct m17_desk *d, uint64_t lines[24]) {
    return m17_desk_list(d->windows, d->rings, d->numbers, d->levels, d->opened, lines);
}

#ifdef __cplusplus
}
#endif
#endif
