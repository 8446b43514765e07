//! A safe wrapper of the proved SILK noise shaping quantiser with delayed decision (`include/nsq.h`; `docs/RULES.md` has its rules).
//!
//! A [`State`] holds what one frame leaves for the next; [`State::code`] codes a frame by [`Settings`] and [`Rows`] and writes its
//! pulses. The lengths of the rows are tested here, before the call, and again by the library: a wrong one is [`Refusal::Row`]. A refused
//! call leaves the state and the pulses as they were. [`State::code_reported`] codes a frame likewise and counts where the pulses handed out
//! differ from the winner's own, which is nowhere. [`excitation`] is what the far end makes of a frame's pulses. [`wav`] reads the samples of a
//! note from a WAV file. A call needs 72 KB of stack at most (`NSQ_STACK` in `include/nsq.h`, which says how that was measured).
//!
//! A frame of a tone, coded with two paths, and a call that is refused:
//!
//! ```
//! use nsq::{places, Refusal, Rows, Settings, State};
//!
//! let settings = Settings {
//!     subfr_length: 40,             // L
//!     nb_subfr: 2,                  // n: a frame has 80 samples
//!     predict_lpc_order: 10,
//!     shaping_lpc_order: 2,
//!     n_states_delayed_decision: 2, // paths
//!     warping_q16: 0,
//!     signal_type: 0,               // not voiced
//!     quant_offset_type: 0,
//!     nlsf_interp_coef_q2: 4,
//!     seed: 0,
//!     lambda_q10: 1000,
//!     ltp_scale_q14: 0,
//! };
//! let x: Vec<i16> = (0..80).map(|i| if i % 20 < 10 { 900 } else { -900 }).collect();
//! let mut pred = [0; 32];
//! (pred[0], pred[16]) = (3000, 3000); // each sample is predicted as 3000 / 4096 of the one before
//! let rows = Rows {
//!     x: &x,
//!     pred_coef_q12: &pred,
//!     ltp_coef_q14: &[0; 10],
//!     ar_q13: &[0; 48],
//!     harm_shape_gain_q14: &[0; 2],
//!     tilt_q14: &[-2000; 2],
//!     lf_shp_q14: &[0; 2],
//!     gains_q16: &[65536 * 400; 2],
//!     pitch_l: &[0; 2],
//! };
//! let (mut state, mut pulses) = (State::default(), [0; 80]);
//! let seed = state.code(&settings, &rows, &mut pulses)?;
//! assert_eq!(seed, 0);
//! assert_eq!(pulses[..10], [2, -1, 0, 1, 0, 1, 0, -1, 1, 0]);
//! assert_eq!(state.words()[places::PREV_GAIN_Q16], 65536 * 400);
//!
//! // n is 2 here, so no row of gains has three
//! let why = state.code(&settings, &Rows { gains_q16: &[65536; 3], ..rows }, &mut pulses).unwrap_err();
//! assert_eq!(why, Refusal::Row);
//! assert_eq!(why.to_string(), "refused: 5, a row has another length");
//! # Ok::<(), Refusal>(())
//! ```
#![deny(missing_docs)]

mod ffi;
pub mod places;
pub mod wav;

use std::error::Error;
use std::fmt;

/// The lengths of a state's two rows.
pub const SAMPLES: usize = 640;
/// See [`SAMPLES`].
pub const WORDS: usize = 767;

/// Why a call was refused, by the numbers of `docs/RULES.md` (`why as u32`). The lowest that applies is given.
#[derive(Clone, Copy, Debug, PartialEq, Eq)]
#[repr(u32)]
pub enum Refusal {
    /// L is not 40, 60 or 80, or n is not 2 or 4.
    Length = 1,
    /// The prediction order does not go with L, or the shaping order is not even, 2 to 24.
    Order = 2,
    /// The path count is not 1 to 4.
    Paths = 3,
    /// Signal type, offset type, interpolation or seed is out of range.
    Kind = 4,
    /// A row has another length.
    Row = 5,
    /// A gain, or the state's previous gain, is below 1.
    Gain = 6,
    /// A lag is not allowed.
    Lag = 7,
}

/// The number and what it means, as `refused: 7, a lag is not allowed`.
impl fmt::Display for Refusal {
    fn fmt(&self, f: &mut fmt::Formatter) -> fmt::Result {
        let words = match self {
            Refusal::Length => "the subframe length or the subframe count is not allowed",
            Refusal::Order => "the prediction order or the shaping order is not allowed",
            Refusal::Paths => "the path count is not allowed",
            Refusal::Kind => "the signal type, offset type, interpolation or seed is not allowed",
            Refusal::Row => "a row has another length",
            Refusal::Gain => "a gain is below 1",
            Refusal::Lag => "a lag is not allowed",
        };
        write!(f, "refused: {}, {words}", *self as u32)
    }
}

impl Error for Refusal {}

/// The settings of a call; L is `subfr_length`, n is `nb_subfr`, a frame has n times L samples.
#[derive(Clone, Copy, Debug, PartialEq, Eq)]
pub struct Settings {
    /// L: 40, 60 or 80.
    pub subfr_length: i32,
    /// n: 2 or 4.
    pub nb_subfr: i32,
    /// 10 for L 40 and 60, 16 for L 80.
    pub predict_lpc_order: i32,
    /// Even, 2 to 24.
    pub shaping_lpc_order: i32,
    /// How many paths are followed, 1 to 4.
    pub n_states_delayed_decision: i32,
    /// Any number; its low 16 bits count.
    pub warping_q16: i32,
    /// 0 to 2; 2 is voiced.
    pub signal_type: i32,
    /// 0 or 1.
    pub quant_offset_type: i32,
    /// 0 to 4.
    pub nlsf_interp_coef_q2: i32,
    /// 0 to 3: the seed of the frame.
    pub seed: i32,
    /// Any number.
    pub lambda_q10: i32,
    /// Any number; its low 16 bits count.
    pub ltp_scale_q14: i32,
}

/// Where the seed stands in the row of settings.
const SEED: usize = 9;

impl Settings {
    /// N, the samples and pulses of a frame, where n and L are allowed.
    pub fn frame_length(&self) -> Option<usize> {
        let good = [40, 60, 80].contains(&self.subfr_length) && [2, 4].contains(&self.nb_subfr);
        good.then(|| (self.subfr_length * self.nb_subfr) as usize)
    }

    fn row(&self) -> [i32; 12] {
        [
            self.subfr_length,
            self.nb_subfr,
            self.predict_lpc_order,
            self.shaping_lpc_order,
            self.n_states_delayed_decision,
            self.warping_q16,
            self.signal_type,
            self.quant_offset_type,
            self.nlsf_interp_coef_q2,
            self.seed,
            self.lambda_q10,
            self.ltp_scale_q14,
        ]
    }
}

/// The rows of a call. N is the frame, n the subframe count.
#[derive(Clone, Copy, Debug)]
pub struct Rows<'a> {
    /// N samples of input.
    pub x: &'a [i16],
    /// PredCoef_Q12, two rows of 16.
    pub pred_coef_q12: &'a [i16],
    /// LTPCoef_Q14, 5 for each subframe.
    pub ltp_coef_q14: &'a [i16],
    /// AR_Q13, 24 for each subframe.
    pub ar_q13: &'a [i16],
    /// HarmShapeGain_Q14, one for each subframe.
    pub harm_shape_gain_q14: &'a [i32],
    /// Tilt_Q14, one for each subframe.
    pub tilt_q14: &'a [i32],
    /// LF_shp_Q14, one for each subframe.
    pub lf_shp_q14: &'a [i32],
    /// Gains_Q16, one for each subframe, each 1 or more.
    pub gains_q16: &'a [i32],
    /// pitchL, one for each subframe.
    pub pitch_l: &'a [i32],
}

impl Rows<'_> {
    fn fit(&self, frame: usize, n: usize) -> bool {
        self.x.len() == frame
            && self.pred_coef_q12.len() == 32
            && self.ltp_coef_q14.len() == 5 * n
            && self.ar_q13.len() == 24 * n
            && [self.harm_shape_gain_q14, self.tilt_q14, self.lf_shp_q14, self.gains_q16, self.pitch_l].iter().all(|r| r.len() == n)
    }
}

/// What one frame leaves for the next: 640 samples and 767 words, at the places that [`places`] names.
#[derive(Clone, Debug, PartialEq, Eq)]
pub struct State {
    samples: [i16; SAMPLES],
    words: [i32; WORDS],
}

/// The state before the first frame, as [`State::fresh`] makes it.
impl Default for State {
    fn default() -> State {
        State::fresh()
    }
}

impl State {
    /// The state before the first frame: all 0, but the lag ([`places::LAG_PREV`]) is 100 and the gain ([`places::PREV_GAIN_Q16`]) 65536.
    pub fn fresh() -> State {
        let mut s = State { samples: [0; SAMPLES], words: [0; WORDS] };
        let answer = ffi::fresh(&mut s.samples, &mut s.words);
        debug_assert_eq!(answer, 0);
        s
    }

    /// The state that two rows hold.
    pub fn from_rows(samples: [i16; SAMPLES], words: [i32; WORDS]) -> State {
        State { samples, words }
    }

    /// The history of decoded samples.
    pub fn samples(&self) -> &[i16; SAMPLES] {
        &self.samples
    }

    /// All other words; [`places`] says where each stands.
    pub fn words(&self) -> &[i32; WORDS] {
        &self.words
    }

    /// Codes a frame: writes N pulses, steps the state, and hands back the seed to code. Refused, nothing is touched.
    pub fn code(&mut self, settings: &Settings, rows: &Rows, pulses: &mut [i8]) -> Result<i32, Refusal> {
        let mut row = settings.row();
        let (samples, words) = self.lent(settings, rows, pulses.len());
        accepted(ffi::del_dec(&mut row, samples, words, rows, pulses))?;
        Ok(row[SEED])
    }

    /// Codes a frame as [`State::code`] does, and reports at how many of its places the pulses handed out differ from those that the final
    /// winner chose itself. That is proved to be 0 for every frame that is accepted; the library counts it all the same, for whoever would
    /// rather look at the number than trust the proof.
    pub fn code_reported(&mut self, settings: &Settings, rows: &Rows, pulses: &mut [i8]) -> Result<Reported, Refusal> {
        let (mut row, mut report) = (settings.row(), [-1]); // no count, so that one which is not written shows
        let (samples, words) = self.lent(settings, rows, pulses.len());
        accepted(ffi::del_dec_report(&mut row, samples, words, rows, pulses, &mut report))?;
        Ok(Reported { seed: row[SEED], differing: report[0] })
    }

    /// The rows of the state where all lengths fit; else none, so that the settings' refusal comes back, else 5.
    fn lent(&mut self, settings: &Settings, rows: &Rows, pulses: usize) -> (&mut [i16], &mut [i32]) {
        let fit = settings.frame_length().is_some_and(|n| rows.fit(n, settings.nb_subfr as usize) && pulses == n);
        if fit {
            (&mut self.samples, &mut self.words)
        } else {
            (&mut [], &mut [])
        }
    }
}

/// What [`State::code_reported`] hands back.
#[derive(Clone, Copy, Debug, PartialEq, Eq)]
pub struct Reported {
    /// The seed to code, as from [`State::code`].
    pub seed: i32,
    /// At how many places of the frame the pulses handed out differ from the final winner's own: always 0.
    pub differing: i32,
}

fn accepted(answer: u32) -> Result<(), Refusal> {
    match answer {
        0 => Ok(()),
        1 => Err(Refusal::Length),
        2 => Err(Refusal::Order),
        3 => Err(Refusal::Paths),
        4 => Err(Refusal::Kind),
        6 => Err(Refusal::Gain),
        7 => Err(Refusal::Lag),
        _ => Err(Refusal::Row),
    }
}

/// Why [`excitation`] was refused (`why as u32` is the number). The lowest number that applies is given.
#[derive(Clone, Copy, Debug, PartialEq, Eq)]
#[repr(u32)]
pub enum HeardRefusal {
    /// The seed is not 0 to 3.
    Seed = 1,
    /// The signal type is not 0 to 2, or the offset type is not 0 or 1.
    Kind = 2,
    /// The two rows differ in length, or are longer than 320.
    Row = 3,
}

/// The number and what it means, as `refused: 1, the seed is not allowed`.
impl fmt::Display for HeardRefusal {
    fn fmt(&self, f: &mut fmt::Formatter) -> fmt::Result {
        let words = match self {
            HeardRefusal::Seed => "the seed is not allowed",
            HeardRefusal::Kind => "the signal type or the offset type is not allowed",
            HeardRefusal::Row => "the two rows differ in length or are too long",
        };
        write!(f, "refused: {}, {words}", *self as u32)
    }
}

impl Error for HeardRefusal {}

/// What the far end hears: writes the excitation (Q23) that a decoder makes of a frame's pulses, one value for each (RFC 6716, 4.2.7.8.6).
/// Any pulses, and any length from 0 to 320 that both rows have. `seed` is the one that [`State::code`] handed back, `signal_type` and
/// `offset_type` are those of the settings. Refused, the row is as it was.
pub fn excitation(pulses: &[i8], seed: i32, signal_type: i32, offset_type: i32, row: &mut [i32]) -> Result<(), HeardRefusal> {
    match ffi::excitation(pulses, seed, signal_type, offset_type, row) {
        0 => Ok(()),
        1 => Err(HeardRefusal::Seed),
        2 => Err(HeardRefusal::Kind),
        _ => Err(HeardRefusal::Row),
    }
}
