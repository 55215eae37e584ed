/* What the program `receive` does, in C: bare samples at 48 kHz on standard input, a line for each accepted frame on standard output.
 * cc -O2 receive.c $(pkg-config --cflags --libs m17modem) */
#include "m17modem.h"
#include <stdio.h>

static struct m17_receiver receiver;

/* All the samples, stretch by stretch, each up to an offer, which is replied to before the next. 0 where the receiver refuses. */
static int hear(const int16_t *samples, size_t count) {
    struct m17_told told = {0, 0, 0, 0, 0, 0};
    float room[192];
    uint8_t line[97];
    for (size_t at = 0; at < count; at += told.fed) {
        uint32_t code = m17_feed(&receiver, samples + at, count - at, room, &told);
        if (code >= M17_REFUSED) {
            fprintf(stderr, "receive: refusal %u\n", M17_NUMBER(code));
            return 0;
        }
        if (code == M17_QUIET) continue;
        uint32_t accepted = m17_accepts(code, room);
        m17_reply(&receiver, accepted);
        if (!accepted) continue;
        m17_line(room, line);
        fwrite(line, 1, sizeof line, stdout);
    }
    return 1;
}

int main(void) {
    static int16_t samples[8192];
    static unsigned char bytes[sizeof samples];
    m17_start_receiver(&receiver, 48000);
    for (size_t got; (got = fread(bytes, 1, sizeof bytes, stdin)) > 1;) {
        for (size_t i = 0; i < got / 2; i++) samples[i] = (int16_t)(uint16_t)(bytes[2 * i] | bytes[2 * i + 1] << 8);
        if (!hear(samples, got / 2)) return 1;
    }
    return ferror(stdin) || fflush(stdout) != 0;
}
