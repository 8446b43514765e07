//! Where the words of a state stand: what [`State::words`](crate::State::words) hands out is indexed by these, by a place for one word, by a
//! range for several. `include/nsq.h` has the same names after `NSQ_`, and the same numbers.
//!
//! ```
//! use nsq::{places, State};
//! let state = State::fresh();
//! assert_eq!(state.words()[places::LAG_PREV], 100);
//! assert_eq!(state.words()[places::PREV_GAIN_Q16], 65536);
//! assert_eq!(state.words()[places::SAR2_Q14], [0; 24]);
//! ```
use std::ops::Range;

/// The shaping words; of them the first 4L count.
pub const SLTP_SHP_Q14: Range<usize> = 0..640;
/// The words of the short-term prediction; of them the first 16 count.
pub const SLPC_Q14: Range<usize> = 640..736;
/// The words of the noise shaping filter.
pub const SAR2_Q14: Range<usize> = 736..760;
/// The low-frequency word of the noise shaping.
pub const SLF_AR_SHP_Q14: usize = 760;
/// The difference that the noise shaping filter is given first.
pub const SDIFF_SHP_Q14: usize = 761;
/// The last lag of the frame before, 0 for none; 100 before the first frame.
pub const LAG_PREV: usize = 762;
/// Handed out and never read.
pub const SLTP_BUF_IDX: usize = 763;
/// Handed out and never read.
pub const SLTP_SHP_BUF_IDX: usize = 764;
/// The last gain of the frame before.
pub const PREV_GAIN_Q16: usize = 765;
/// Handed out and never read.
pub const REWHITE_FLAG: usize = 766;
