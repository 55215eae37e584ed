//! The functions of libm17modem.a, as m17modem.h declares them: it says what each answers, and what it is refused for.

extern "C" {
    pub fn m17_receiver_new(window: *mut i16, ring: *mut f32, numbers: *mut u64, levels: *mut f32, rate: u32) -> u32;
    pub fn m17_receiver_feed(
        window: *mut i16,
        ring: *mut f32,
        numbers: *mut u64,
        levels: *mut f32,
        samples: *const i16,
        count: usize,
        room: *mut f32,
        places: usize,
        told: *mut u64,
        gain: *mut f32,
    ) -> u32;
    pub fn m17_receiver_reply(window: *const i16, ring: *const f32, numbers: *mut u64, levels: *mut f32, accepted: u32) -> u32;
    pub fn m17_receiver_carrier(window: *const i16, numbers: *const u64, levels: *const f32) -> u32;
    pub fn m17_sender_new(store: *mut i16, window: *mut f32, numbers: *mut u64, rate: u32) -> u32;
    pub fn m17_sender_preamble(store: *mut i16, window: *mut f32, numbers: *mut u64, bert: u32, tx_delay: u8) -> u32;
    pub fn m17_sender_symbols(store: *mut i16, window: *mut f32, numbers: *mut u64, bert: u32, symbols: *const f32, count: usize) -> u32;
    pub fn m17_sender_end(store: *mut i16, window: *mut f32, numbers: *mut u64) -> u32;
    pub fn m17_sender_no_frame(store: *mut i16, window: *mut f32, numbers: *mut u64) -> u32;
    pub fn m17_sender_read(store: *const i16, window: *const f32, numbers: *mut u64, out: *mut i16, places: usize, told: *mut u64) -> u32;
    pub fn m17_sender_update(store: *const i16, window: *const f32, numbers: *mut u64, fill: u64, capacity: u64, latency: u64) -> u32;
    pub fn m17_sender_run(store: *const i16, window: *const f32, numbers: *mut u64, told: *mut u64) -> u32;
    pub fn m17_accepts(kind: u32, symbols: *const f32) -> u32;
    pub fn m17_line(symbols: *const f32, line: *mut u8);
    pub fn m17_line_symbols(line: *const u8, symbols: *mut f32) -> u32;
    pub fn m17_bit_errors(sent: *const f32, sent_count: usize, received: *const f32, received_count: usize, told: *mut u64) -> u32;
    pub fn m17_replay(
        rate: u32,
        recording: *const i16,
        count: usize,
        sample: u64,
        room: *mut f32,
        places: usize,
        told: *mut u64,
        gain: *mut f32,
    ) -> u32;
    pub fn m17_list(
        rate: u32,
        recording: *const i16,
        count: usize,
        replies: *const u8,
        replies_count: usize,
        numbers: *mut u64,
        numbers_places: usize,
        symbols: *mut f32,
        symbols_places: usize,
        told: *mut u64,
    ) -> u32;
    pub fn m17_check(padding: u64, lines: *const u8, bytes: usize, samples: *const i16, count: usize, told: *mut u64) -> u32;
    pub fn m17_report_new(numbers: *mut u64, gains: *mut f32) -> u32;
    pub fn m17_report_add(numbers: *mut u64, gains: *mut f32, rate: u32, recording: *const i16, count: usize) -> u32;
    pub fn m17_report_merge(numbers: *mut u64, gains: *mut f32, other_numbers: *const u64, other_gains: *const f32) -> u32;
    pub fn m17_desk_new(windows: *mut i16, rings: *mut f32, numbers: *mut u64, levels: *mut f32, opened: *mut u64) -> u32;
    pub fn m17_desk_open(
        windows: *mut i16,
        rings: *mut f32,
        numbers: *mut u64,
        levels: *mut f32,
        opened: *mut u64,
        seat: u64,
        rate: u32,
    ) -> u32;
    pub fn m17_desk_close(windows: *const i16, rings: *const f32, numbers: *const u64, levels: *const f32, opened: *mut u64, seat: u64) -> u32;
    pub fn m17_desk_feed(
        windows: *mut i16,
        rings: *mut f32,
        numbers: *mut u64,
        levels: *mut f32,
        opened: *const u64,
        seat: u64,
        samples: *const i16,
        count: usize,
        room: *mut f32,
        places: usize,
        told: *mut u64,
        gain: *mut f32,
    ) -> u32;
    pub fn m17_desk_reply(
        windows: *const i16,
        rings: *const f32,
        numbers: *mut u64,
        levels: *mut f32,
        opened: *const u64,
        seat: u64,
        accepted: u32,
    ) -> u32;
    pub fn m17_desk_carrier(
        windows: *const i16,
        rings: *const f32,
        numbers: *const u64,
        levels: *const f32,
        opened: *const u64,
        seat: u64,
    ) -> u32;
    pub fn m17_desk_list(
        windows: *const i16,
        rings: *const f32,
        numbers: *const u64,
        levels: *const f32,
        opened: *const u64,
        lines: *mut u64,
    ) -> u32;
}
