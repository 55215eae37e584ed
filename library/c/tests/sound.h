/* Random numbers, not-a-numbers, and a transmission, for the test programs. */
#ifndef SOUND_H
#define SOUND_H
#include "m17modem.h"
#include <stdio.h>
#include <stdlib.h>
#include <string.h>

static uint64_t state = 88172645463325252u;

static uint64_t any(void) {
    state ^= state << 13;
    state ^= state >> 7;
    state ^= state << 17;
    return state;
}

static uint64_t below(uint64_t limit) {
    return (any() >> 11) % limit;
}

static void fill(void *to, size_t bytes) {
    unsigned char *byte = to;
    while (bytes--) *byte++ = (unsigned char)(any() >> 24);
}

/* A not-a-number with any sign and payload, quiet or signalling. */
static uint32_t pattern(void) {
    uint32_t bits = (uint32_t)any();
    return 0x7F800000u | (bits & 0x807FFFFFu) | 1u << below(23);
}

static void put_pattern(float *to) {
    uint32_t bits = pattern();
    memcpy(to, &bits, sizeof bits);
}

/* A transmission: preamble, frames of random symbols after the burst of a kind, the end, and a pause */

enum { SOUND = 64000 };

static size_t transmit(uint32_t rate, int frames, int16_t sound[SOUND]) {
    static const float signs[4][8] = {{1, 1, 1, 1, -1, -1, 1, -1}, {-1, 1, -1, -1, 1, 1, 1, 1}, {-1, -1, -1, -1, 1, 1, -1, 1}, {1, -1, 1, 1, -1, -1, -1, -1}};
    static const float levels[4] = {-1, -1.0f / 3, 1.0f / 3, 1};
    static struct m17_sender s;
    size_t n = 0;
    memset(sound, 0, SOUND * sizeof *sound);
    m17_start_sender(&s, rate);
    for (int frame = -1; frame <= frames; frame++) {
        float symbols[192];
        uint64_t told = 0;
        for (int i = 0; i < 192; i++) symbols[i] = i < 8 ? signs[frame & 3][i] : levels[any() & 3];
        uint32_t code = frame < 0 ? m17_preamble(&s, 0, 0) : frame == frames ? m17_end(&s) : m17_symbols(&s, 0, symbols);
        if (code || m17_read(&s, sound + n, SOUND - n, &told)) exit(2);
        n += told;
    }
    return n + 4000 < SOUND ? n + 4000 : SOUND;
}
#endif
