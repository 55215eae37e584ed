// A transmission of lines, as the program `send` makes it.
use m17_modem::{line_symbols, ModulatorFrame, Rate, Refusal, SoftModulator, Traffic};

/// Preamble, a frame for each line, which is 96 digits, and the end.
pub fn sent(rate: Rate, lines: &[String]) -> Result<Vec<i16>, Refusal> {
    let mut sender = SoftModulator::at(rate);
    let mut samples = vec![];
    let mut send = |frame: ModulatorFrame<'_>| {
        sender.provide_next_frame(Some(frame))?;
        let mut room = [0; 4000];
        let count = sender.read_output_samples(&mut room)?;
        samples.extend_from_slice(&room[..count]);
        Ok(())
    };
    send(ModulatorFrame::Preamble { traffic: Traffic::Ordinary, tx_delay: 0 })?;
    for line in lines {
        let line = format!("{line}\n").into_bytes().try_into().expect("96 digits");
        let symbols = line_symbols(&line).expect("a good line");
        send(ModulatorFrame::Symbols { traffic: Traffic::Ordinary, symbols: &symbols })?;
    }
    send(ModulatorFrame::EndOfTransmission)?;
    Ok(samples)
}

/// A line with this word and a payload that the number tells from others.
pub fn a_line(word: &str, number: u64) -> String {
    let mut bits = number.wrapping_mul(0x9E37_79B9_7F4A_7C15) | 1;
    let digits = (0..92).map(|_| {
        bits = bits.wrapping_mul(0x5851_F42D_4C95_7F2D).wrapping_add(0x1405_7B7E_F767_814F);
        char::from_digit((bits >> 60) as u32, 16).expect("a digit").to_ascii_uppercase()
    });
    word.chars().chain(digits).collect()
}
