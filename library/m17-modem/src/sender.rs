//! The sender.
use crate::{done, ffi, Rate, Refusal, Symbols};

/// What a transmission carries.
///
/// ```
/// use m17_modem::{ModulatorFrame, SoftModulator, Traffic};
/// let preamble = ModulatorFrame::Preamble { traffic: Traffic::Bert, tx_delay: 0 };
/// SoftModulator::new().provide_next_frame(Some(preamble))?;
/// # Ok::<(), m17_modem::Refusal>(())
/// ```
#[derive(Clone, Copy, Debug, PartialEq, Eq, Hash)]
pub enum Traffic {
    /// Frames of every kind but BERT's.
    Ordinary,
    /// A link test: a preamble and frames of its own.
    Bert,
}

/// What to send next. m17core's frames become the 192 symbols that its encode functions make of them.
///
/// ```
/// use m17_modem::{ModulatorFrame, SoftModulator, Traffic};
/// let frame = ModulatorFrame::Symbols { traffic: Traffic::Ordinary, symbols: &[1.0; 192] };
/// SoftModulator::new().provide_next_frame(Some(frame))?;
/// # Ok::<(), m17_modem::Refusal>(())
/// ```
#[derive(Clone, Copy, Debug, PartialEq)]
pub enum ModulatorFrame<'a> {
    /// The preamble, after a delay of so many steps of ten milliseconds.
    Preamble {
        /// What the transmission carries.
        traffic: Traffic,
        /// Steps of ten milliseconds.
        tx_delay: u8,
    },
    /// A frame.
    Symbols {
        /// What the transmission carries: a BERT frame begins with its burst, or is refused.
        traffic: Traffic,
        /// The frame's symbols, from -1 to 1.
        symbols: &'a Symbols,
    },
    /// The end of the transmission.
    EndOfTransmission,
}

/// What the caller is to do next.
///
/// ```
/// use m17_modem::{ModulatorAction, SoftModulator};
/// assert_eq!(SoftModulator::new().run()?, Some(ModulatorAction::SetIdle(true)));
/// # Ok::<(), m17_modem::Refusal>(())
/// ```
#[derive(Clone, Copy, Debug, PartialEq, Eq, Hash)]
pub enum ModulatorAction {
    /// Set the idle state.
    SetIdle(bool),
    /// Ask for a frame and provide it.
    GetNextFrame,
    /// Read samples into the output buffer.
    ReadOutput,
    /// The transmission ends after so many samples.
    TransmissionWillEnd(usize),
}

/// The sender: some 8 KB, which own all that it remembers.
///
/// ```
/// use m17_modem::{ModulatorFrame, SoftModulator, Traffic};
/// let mut sender = SoftModulator::new();
/// sender.provide_next_frame(Some(ModulatorFrame::Preamble { traffic: Traffic::Ordinary, tx_delay: 0 }))?;
/// let mut room = [0; 4000];
/// assert_eq!(sender.read_output_samples(&mut room)?, 1920);
/// # Ok::<(), m17_modem::Refusal>(())
/// ```
#[derive(Clone)]
pub struct SoftModulator {
    memory: ffi::Sender,
}

impl Default for SoftModulator {
    fn default() -> Self {
        Self::new()
    }
}

impl SoftModulator {
    /// A fresh sender at 48 kHz, as m17core's.
    ///
    /// ```
    /// use m17_modem::{ModulatorFrame, SoftModulator};
    /// SoftModulator::new().provide_next_frame(Some(ModulatorFrame::EndOfTransmission))?;
    /// # Ok::<(), m17_modem::Refusal>(())
    /// ```
    pub fn new() -> Self {
        Self::at(Rate::Khz48)
    }

    /// A fresh sender at a rate.
    ///
    /// ```
    /// use m17_modem::{ModulatorFrame, Rate, SoftModulator};
    /// let mut sender = SoftModulator::at(Rate::Khz24);
    /// sender.provide_next_frame(Some(ModulatorFrame::EndOfTransmission))?;
    /// assert_eq!(sender.read_output_samples(&mut [0; 4000])?, 1360);
    /// # Ok::<(), m17_modem::Refusal>(())
    /// ```
    pub fn at(rate: Rate) -> Self {
        let mut made = Self { memory: ffi::Sender::zeroed() };
        // Both rates are admitted, so that this is never refused.
        made.memory.start(rate.hertz());
        made
    }

    /// The next frame, or that there is none.
    ///
    /// ```
    /// use m17_modem::{ModulatorFrame, Place, SoftModulator, Traffic};
    /// let mut symbols = [1.0; 192];
    /// symbols[100] = f32::NAN;
    /// let frame = ModulatorFrame::Symbols { traffic: Traffic::Ordinary, symbols: &symbols };
    /// let refused = SoftModulator::new().provide_next_frame(Some(frame)).unwrap_err();
    /// assert_eq!((refused.number(), refused.place()), (71, Some(Place::Symbol(100))));
    /// ```
    pub fn provide_next_frame(&mut self, frame: Option<ModulatorFrame<'_>>) -> Result<(), Refusal> {
        done(match frame {
            None => self.memory.no_frame(),
            Some(ModulatorFrame::Preamble { traffic, tx_delay }) => self.memory.preamble(traffic == Traffic::Bert, tx_delay),
            Some(ModulatorFrame::Symbols { traffic, symbols }) => self.memory.symbols(traffic == Traffic::Bert, symbols),
            Some(ModulatorFrame::EndOfTransmission) => self.memory.end(),
        })
    }

    /// How many samples of `out` were written.
    ///
    /// ```
    /// use m17_modem::{ModulatorFrame, SoftModulator, Traffic};
    /// let mut sender = SoftModulator::new();
    /// sender.provide_next_frame(Some(ModulatorFrame::Preamble { traffic: Traffic::Ordinary, tx_delay: 1 }))?;
    /// let mut room = [7; 480];
    /// assert_eq!(sender.read_output_samples(&mut room)?, 480);
    /// assert_eq!(room, [0; 480]);
    /// # Ok::<(), m17_modem::Refusal>(())
    /// ```
    pub fn read_output_samples(&mut self, out: &mut [i16]) -> Result<usize, Refusal> {
        let mut told = 0;
        done(self.memory.read(out, &mut told))?;
        Ok(told as usize)
    }

    /// What the sound card counts: samples still to play, the buffer's capacity, and the latency after it.
    ///
    /// ```
    /// use m17_modem::{Refusal, SoftModulator};
    /// let mut sender = SoftModulator::new();
    /// sender.update_output_buffer(0, 4800, 100)?;
    /// assert_eq!(sender.update_output_buffer(5, 4, 0), Err(Refusal::CapacityBelowFill));
    /// # Ok::<(), m17_modem::Refusal>(())
    /// ```
    pub fn update_output_buffer(&mut self, samples_to_play: usize, capacity: usize, output_latency: usize) -> Result<(), Refusal> {
        done(self.memory.update(samples_to_play as u64, capacity as u64, output_latency as u64))
    }

    /// The next action, if there is one.
    ///
    /// ```
    /// use m17_modem::{ModulatorAction, SoftModulator};
    /// let mut sender = SoftModulator::new();
    /// assert_eq!(sender.run()?, Some(ModulatorAction::SetIdle(true)));
    /// assert_eq!(sender.run()?, None);
    /// sender.update_output_buffer(0, 4800, 100)?;
    /// assert_eq!(sender.run()?, Some(ModulatorAction::GetNextFrame));
    /// # Ok::<(), m17_modem::Refusal>(())
    /// ```
    pub fn run(&mut self) -> Result<Option<ModulatorAction>, Refusal> {
        let mut told = 0;
        match self.memory.run(&mut told) {
            0 => Ok(None),
            1 => Ok(Some(ModulatorAction::TransmissionWillEnd(told as usize))),
            2 => Ok(Some(ModulatorAction::ReadOutput)),
            3 => Ok(Some(ModulatorAction::SetIdle(told != 0))),
            4 => Ok(Some(ModulatorAction::GetNextFrame)),
            code => Err(Refusal::of(code, 0)),
        }
    }
}
