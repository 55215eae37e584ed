//! Counts of what was compared, so that a run says what it covered.

use std::fmt::{self, Display, Formatter};

macro_rules! tally {
    ($($name:ident: $words:literal,)*) => {
        #[derive(Default)]
        pub struct Tally {
            $(pub $name: u64,)*
        }

        impl Display for Tally {
            fn fmt(&self, out: &mut Formatter) -> fmt::Result {
                $(writeln!(out, "{:>14}  {}", grouped(self.$name), $words)?;)*
                Ok(())
            }
        }
    };
}

tally! {
    recordings: "recordings, each from a fresh receiver",
    samples: "samples: the filtered value, the candidate's floats and fourteen numbers after each",
    bulk: "of them fed in bulk too (`feed`), a stretch in one call and in pieces, the record compared with that of `demod`",
    pieces: "  pieces of 1 to 2,000 samples, with the answer, the room, the count fed and the numbers after each",
    whole: "times the whole window and ring were compared",
    offers: "offers: kind, sample number, taken-at, age, mark and 192 symbols",
    offers_lsf: "  of LSF",
    offers_bert: "  of BERT",
    offers_stream: "  of Stream",
    offers_packet: "  of Packet",
    marked: "  marked",
    accepted: "  accepted",
    rejected: "  rejected, with the search by the reply",
    taken_on_reject: "  rejected, and a candidate taken by that search",
    listings: "recordings listed by the slow engine (`list_offers`), with some of the replies, all or more",
    listed: "  offers listed: five numbers and 192 symbols each, and both rooms' rest as it was",
    listed_unanswered: "  lists that end with an offer that has no reply",
    takes: "candidates taken",
    replaced: "  in the place of another kind",
    ties: "  in the place of one with the very same diff",
    ages: "ages raised",
    waits: "waits set",
    waits_kept: "  with the candidate replaced or aged on that very sample",
    timers_set: "carrier timers set or moved",
    timers_sooner: "  to a sooner end",
    timers_cleared: "carrier timers cleared",
    carrier_yes: "carrier queries answered yes after a sample, where the Rust says no (listed)",
    sessions: "sender sessions, each from a fresh sender",
    calls: "sender calls: the answer, the room, the store, the window and thirteen numbers after each",
    frames: "  frames provided",
    bert_preambles: "  of them BERT preambles",
    bert_frames: "  of them BERT frames",
    replaced_unread: "  of them in the place of unread samples",
    reads: "  reads",
    updates: "  updates",
    actions: "  action requests",
    ends: "  of them answered with a transmit end",
    windows: "made-up windows laid in a session",
    call_refusals: "sender calls refused in a session, record and room unchanged; the Rust is not asked (listed)",
    receiver_records: "made-up receiver records, one call each, or one stretch",
    record_samples: "  samples accepted",
    record_stopped: "  after which a second in the same call (`feed`) would be refused, and did not go in",
    record_offers: "  offers among them, with the reply",
    record_searches: "  searches that took or aged a candidate",
    record_ties: "  candidates taken in the place of one with the very same diff",
    record_alike: "  candidates taken in the place of one with the very same values: only the sample is another",
    record_replies: "  replies accepted",
    record_searched: "  rejections among them whose search changed the record",
    stale_timers: "  replies with a timer that has run out, of which the Rust was given none",
    record_queries: "  carrier queries",
    record_carrier_yes: "  of them answered yes, where the Rust says no (listed)",
    minus_zeros: "  searches with a -0.0 among the eight values, which the port hears as 0.0 (listed)",
    aged_255: "  ages of 254 that came back as 255; the record was then refused (listed)",
    record_refusals: "  refused, record and room unchanged; the Rust is not asked (listed)",
    stretches: "  stretches of 12 to 1,500 samples by `feed`, and one by one by `demod`: answer, count, record and room",
    stretch_samples: "    samples that went in",
    stretch_held: "    that begin with a candidate held",
    stretch_waiting: "    that end in a wait",
    stretch_offers: "    offers inside",
    stretch_refused: "    refused at the first sample, record and room unchanged",
    stretch_last: "    refused inside with 5: the count's end",
    stretch_aged: "    refused inside with 1: an age that became 255",
    stretch_unfit: "    refused inside with 1: a filtered value out of range",
    stretch_ends: "    timers' ends inside a block",
    stretch_both: "    blocks in which a timer was cleared and one set",
    stretch_preamble: "    preambles that set the timer",
    stretch_end: "    ends of transmission that set the timer",
    stretch_lsf: "    candidates taken of LSF",
    stretch_bert: "    candidates taken of BERT",
    stretch_stream: "    candidates taken of Stream",
    stretch_packet: "    candidates taken of Packet",
    sender_records: "made-up sender records, one call each",
    sender_record_calls: "  accepted",
    cut_high: "  frames with samples cut at 32,767 or -32,768",
    sender_record_refusals: "  refused, record and room unchanged; the Rust is not asked (listed)",
    ends_unread: "updates, in sessions and on records, that found an end owed and samples left: by the amended Rust (listed)",
    updates_as_before: "updates that found nothing left to be read: by the Rust with nothing amended too",
    ends_as_before: "  of them that found an end owed",
    refused_1: "calls refused with 1",
    refused_2: "calls refused with 2",
    refused_3: "calls refused with 3",
    refused_4: "calls refused with 4",
    refused_5: "calls refused with 5",
    refused_6: "calls refused with 6",
    refused_71: "calls refused with 71, and the place",
    refused_72: "calls refused with 72, and the place",
    refused_73: "calls refused with 73, and the place",
    refused_74: "calls refused with 74, and the place",
    refused_8: "calls refused with 8",
    refused_9: "calls refused with 9",
    refused_11: "calls refused with 11",
    refused_13: "calls refused with 13",
    refused_15: "calls refused with 15",
    nan_kept: "not-a-numbers of a record that were not-a-numbers again after an accepted call",
    nan_refused: "not-a-numbers of a record that were not-a-numbers again after a refused call",
}

impl Tally {
    pub fn refused(&mut self, number: u64) {
        let count = match number {
            1 => &mut self.refused_1,
            2 => &mut self.refused_2,
            3 => &mut self.refused_3,
            4 => &mut self.refused_4,
            5 => &mut self.refused_5,
            6 => &mut self.refused_6,
            71 => &mut self.refused_71,
            72 => &mut self.refused_72,
            73 => &mut self.refused_73,
            74 => &mut self.refused_74,
            8 => &mut self.refused_8,
            9 => &mut self.refused_9,
            11 => &mut self.refused_11,
            13 => &mut self.refused_13,
            15 => &mut self.refused_15,
            _ => unreachable!("no call is refused with {number}"),
        };
        *count += 1;
    }
}

/// A number in groups of three digits.
fn grouped(number: u64) -> String {
    let digits = number.to_string();
    let mut out = String::new();
    for (i, digit) in digits.chars().enumerate() {
        if i > 0 && (digits.len() - i).is_multiple_of(3) {
            out.push(',');
        }
        out.push(digit);
    }
    out
}
