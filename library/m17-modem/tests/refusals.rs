//! Every refusal that a caller of this crate can meet, with its number and place, and the words of all.
use m17_modem::*;

/// All of them, with the documents' numbers.
const ALL: [(Refusal, u32); 23] = [
    (Refusal::RecordUnfit, 1),
    (Refusal::ReplyOwed, 2),
    (Refusal::NoReplyOwed, 3),
    (Refusal::RoomTooSmall, 4),
    (Refusal::CountAtItsEnd, 5),
    (Refusal::WrongCount, 6),
    (Refusal::SymbolNotANumber(1), 71),
    (Refusal::SymbolInfinite(2), 72),
    (Refusal::SymbolAboveOne(3), 73),
    (Refusal::SymbolBelowMinusOne(4), 74),
    (Refusal::CountTooLarge, 8),
    (Refusal::CapacityBelowFill, 9),
    (Refusal::ValueOutside, 10),
    (Refusal::WrongBurst, 11),
    (Refusal::RecordingTooLong, 12),
    (Refusal::ListRoomTooSmall, 13),
    (Refusal::NoSuchSample, 14),
    (Refusal::WrongRate, 15),
    (Refusal::TotalTooLarge, 16),
    (Refusal::BadLine(5), 17),
    (Refusal::NoSuchSeat, 18),
    (Refusal::SeatClosed, 19),
    (Refusal::SeatOpen, 20),
];

#[test]
fn each_has_its_number_and_a_sentence() {
    for (refusal, number) in ALL {
        assert_eq!(refusal.number(), number);
        let said = refusal.to_string();
        assert!(said.starts_with(&format!("refusal {number}: ")) && said.len() > 20, "{said}");
    }
    let error: &dyn core::error::Error = &Refusal::BadLine(5);
    assert_eq!(error.to_string(), "refusal 17: a bad line of frames (line 5)");
    assert_eq!(Refusal::SymbolAboveOne(3).to_string(), "refusal 73: a symbol above 1 (symbol 3, from 0)");
}

#[test]
fn a_wrong_symbol_is_refused_with_its_place() {
    for (wrong, number) in [(f32::NAN, 71), (f32::INFINITY, 72), (f32::NEG_INFINITY, 72), (1.5, 73), (-1.5, 74)] {
        for place in [0, 100, 191] {
            let mut symbols = [0.5; 192];
            symbols[place] = wrong;
            let frame = ModulatorFrame::Symbols { traffic: Traffic::Ordinary, symbols: &symbols };
            let refused = SoftModulator::new().provide_next_frame(Some(frame)).unwrap_err();
            assert_eq!((refused.number(), refused.place()), (number, Some(Place::Symbol(place))));
        }
    }
    let frame = ModulatorFrame::Symbols { traffic: Traffic::Bert, symbols: &[0.5; 192] };
    assert_eq!(SoftModulator::new().provide_next_frame(Some(frame)), Err(Refusal::WrongBurst));
}

#[test]
fn the_other_calls_are_refused_as_the_documents_say() {
    let mut sender = SoftModulator::new();
    assert_eq!(sender.update_output_buffer(5, 4, 0), Err(Refusal::CapacityBelowFill));
    assert_eq!(sender.update_output_buffer(0, 16_777_217, 0), Err(Refusal::CountTooLarge));
    assert_eq!(SoftDemodulator::new().reply(false), Err(Refusal::NoReplyOwed));
    assert_eq!(bit_errors(&[0.0; 184], &[0.0; 183]), Err(Refusal::WrongCount));
    assert_eq!(Rate::of(44_100), Err(Refusal::WrongRate));
    assert_eq!(replay(Rate::Khz48, &[0; 10], 11, &mut [0.0; 192]), Err(Refusal::NoSuchSample));
    assert_eq!(replay(Rate::Khz48, &[0; 10], 1, &mut [0.0; 191]), Err(Refusal::RoomTooSmall));
    assert!(list(Rate::Khz24, &[0; 65_537], &[], &mut [], &mut []) == Err(Refusal::RecordingTooLong));
    assert_eq!(check(122_401, b"", &[]), Err(Refusal::CountTooLarge));
    assert_eq!(check(0, &[b'0'; 300], &[]), Err(Refusal::BadLine(1)));
}

#[test]
fn a_report_is_refused_where_a_total_would_pass_its_end() {
    let mut numbers = [0; 52];
    numbers[23] = 1 << 63;
    let full = Report::from_numbers(&numbers, &[0.0; 4]).unwrap();
    numbers[23] = 1;
    let mut report = Report::from_numbers(&numbers, &[0.0; 4]).unwrap();
    let before = report.clone();
    assert_eq!(report.merge(&full), Err(Refusal::TotalTooLarge));
    assert_eq!(report, before);
    numbers[23] = (1 << 63) + 1;
    assert_eq!(Report::from_numbers(&numbers, &[0.0; 4]), Err(Refusal::RecordUnfit));
}

#[test]
fn a_desk_is_refused_by_its_seats() {
    let mut desk = Desk::new();
    let seat = Seat::of(7).unwrap();
    assert_eq!(Seat::of(8), Err(Refusal::NoSuchSeat));
    assert_eq!(desk.data_carrier_detect(seat), Err(Refusal::SeatClosed));
    assert_eq!(desk.reply(seat, true), Err(Refusal::SeatClosed));
    desk.open(seat, Rate::Khz24).unwrap();
    assert_eq!(desk.open(seat, Rate::Khz24), Err(Refusal::SeatOpen));
    assert_eq!(desk.reply(seat, true), Err(Refusal::NoReplyOwed));
    assert_eq!(desk.feed(seat, &[0], &mut [0.0; 191]), Err(Refusal::RoomTooSmall));
}
