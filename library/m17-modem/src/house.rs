//! The client's rule and line, and the link test's count: what a caller needs to do as the program `receive` does.
use crate::{done, ffi, Kind, Line, Refusal, Symbols};

/// The rule of the program `receive`: a window is accepted where its first eight symbols, sliced, are the word of its kind.
///
/// ```
/// use m17_modem::{accepts, line_symbols, Kind};
/// let text = format!("55F7{}\n", "0".repeat(92));
/// let frame = line_symbols(text.as_bytes().try_into().unwrap()).unwrap();
/// assert!(accepts(Kind::Lsf, &frame) && !accepts(Kind::Stream, &frame));
/// ```
pub fn accepts(kind: Kind, symbols: &Symbols) -> bool {
    ffi::accepts(kind.number(), symbols) == 1
}

/// The symbols, sliced, as a line.
///
/// ```
/// let line = m17_modem::line(&[-1.0; 192]);
/// assert_eq!(line[..96], [b'F'; 96]);
/// ```
pub fn line(symbols: &Symbols) -> Line {
    let mut line = [0; 97];
    ffi::line(symbols, &mut line);
    line
}

/// The symbols of a good line; none of a bad one.
///
/// ```
/// use m17_modem::{line, line_symbols};
/// let good = line(&[1.0; 192]);
/// assert_eq!(line_symbols(&good), Some([1.0; 192]));
/// assert_eq!(line_symbols(&[b'G'; 97]), None);
/// ```
pub fn line_symbols(line: &Line) -> Option<Symbols> {
    let mut symbols = [0.0; 192];
    (ffi::line_symbols(line, &mut symbols) == 1).then_some(symbols)
}

/// In how many bits two payloads of 184 symbols differ, sliced.
///
/// ```
/// use m17_modem::{bit_errors, Refusal};
/// let mut received = [1.0; 184];
/// received[7] = -1.0;
/// assert_eq!(bit_errors(&[1.0; 184], &received), Ok(1));
/// assert_eq!(bit_errors(&[], &received), Err(Refusal::WrongCount));
/// ```
pub fn bit_errors(sent: &[f32], received: &[f32]) -> Result<u32, Refusal> {
    let mut told = 0;
    done(ffi::bit_errors(sent, received, &mut told))?;
    Ok(told as u32)
}
