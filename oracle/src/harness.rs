//! What stands in for the parts of m17core that cannot be had. A decoder notes the window that it is
//! handed and answers from a script; an encoder hands back 192 symbols that were laid ready. The modem
//! reaches them by plain function calls, hence the thread's own store.

use crate::decode::{name, SyncBurst};
use crate::house::accepts;
use crate::protocol::{LsfFrame, PacketFrame, PacketFrameCounter, StreamFrame};
use std::cell::{Cell, RefCell};
use std::collections::VecDeque;

/// A window that the receiver offered, and the reply that it was given.
pub struct Offer {
    pub kind: &'static str,
    pub symbols: [f32; 192],
    pub accepted: bool,
}

/// Where the replies come from.
enum Replies {
    Script(VecDeque<bool>),
    ByWord,
}

thread_local! {
    static REPLIES: RefCell<Replies> = const { RefCell::new(Replies::Script(VecDeque::new())) };
    static OFFER: RefCell<Option<Offer>> = const { RefCell::new(None) };
    static SYMBOLS: Cell<[f32; 192]> = const { Cell::new([0.0; 192]) };
}

/// Lays the replies to the coming offers ready: `a` accepts, `r` rejects.
pub fn lay_replies(script: &str) {
    let replies = script.chars().map(|c| match c {
        'a' => true,
        'r' => false,
        _ => panic!("a reply is a or r, not {c}"),
    });
    REPLIES.set(Replies::Script(replies.collect()));
}

/// From now on the accept rule of the program receive replies.
pub fn reply_by_word() {
    REPLIES.set(Replies::ByWord);
}

pub fn replies_left() -> usize {
    REPLIES.with_borrow(|replies| match replies {
        Replies::Script(left) => left.len(),
        Replies::ByWord => 0,
    })
}

/// The offer that the last sample led to, if it did.
pub fn take_offer() -> Option<Offer> {
    OFFER.take()
}

/// Lays the symbols of the next frame ready.
pub fn lay_symbols(symbols: [f32; 192]) {
    SYMBOLS.set(symbols);
}

fn offered(burst: SyncBurst, frame: &[f32]) -> bool {
    let symbols = frame.try_into().expect("a window has 192 symbols");
    let accepted = REPLIES.with_borrow_mut(|replies| match replies {
        Replies::Script(left) => left
            .pop_front()
            .expect("the script has a reply for every offer"),
        Replies::ByWord => accepts(burst, &symbols),
    });
    OFFER.set(Some(Offer {
        kind: name(burst),
        symbols,
        accepted,
    }));
    accepted
}

/// Frames that say nothing: what a frame carries is no part of the port.
pub fn an_lsf() -> LsfFrame {
    LsfFrame([0; 30])
}

pub fn a_stream() -> StreamFrame {
    StreamFrame::default()
}

pub fn a_packet() -> PacketFrame {
    PacketFrame {
        payload: [0; 25],
        counter: PacketFrameCounter::Frame { index: 0 },
    }
}

pub(crate) fn parse_lsf(frame: &[f32]) -> Option<LsfFrame> {
    offered(SyncBurst::Lsf, frame).then(an_lsf)
}

pub(crate) fn parse_stream(frame: &[f32]) -> Option<StreamFrame> {
    offered(SyncBurst::Stream, frame).then(a_stream)
}

pub(crate) fn parse_packet(frame: &[f32]) -> Option<PacketFrame> {
    offered(SyncBurst::Packet, frame).then(a_packet)
}

/// Called by the line that request b amends: what such a frame carries is the link test's.
#[cfg_attr(feature = "unamended", allow(dead_code))]
pub(crate) fn parse_bert(frame: &[f32]) -> bool {
    offered(SyncBurst::Bert, frame)
}

pub(crate) fn encode_lsf(_: &LsfFrame) -> [f32; 192] {
    SYMBOLS.get()
}

pub(crate) fn encode_stream(_: &StreamFrame) -> [f32; 192] {
    SYMBOLS.get()
}

pub(crate) fn encode_packet(_: &PacketFrame) -> [f32; 192] {
    SYMBOLS.get()
}
