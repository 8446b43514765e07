//! Notes from WAV files, in two steps. [`find`] finds the part of a file that is its samples, and hands back a slice of that file: nothing is
//! copied. [`samples`] makes samples of such a part in a row of the caller's; [`Note::samples`] does in a row of its own. The file is in memory as a
//! whole. [`WavRefusal`] says which files are refused; `include/nsq.h` says it more exactly, and what of a file is not looked at.
//!
//! ```
//! use nsq::wav::{self, WavRefusal};
//!
//! let mut file = Vec::new();
//! file.extend(b"RIFF\0\0\0\0WAVE"); // the size that follows RIFF is not looked at
//! file.extend(b"fmt \x10\0\0\0\x01\0\x01\0\x80\x3e\0\0\0\x7d\0\0\x02\0\x10\0"); // PCM, one channel, 16000 samples a second, 16 bits
//! file.extend(b"note\x03\0\0\0abc\0"); // a chunk that nobody knows, of an odd length, so a pad byte follows
//! file.extend(b"data\x04\0\0\0\x01\0\xff\xff"); // two samples, low byte first
//!
//! let note = wav::find(&file)?;
//! assert_eq!(note.rate(), 16000);
//! assert_eq!(note.part(), &file[56..60]);
//! assert_eq!(note.samples(), [1, -1]);
//!
//! // without the last byte the data is longer than what is left of the file
//! let why = wav::find(&file[..59]).unwrap_err();
//! assert_eq!(why, WavRefusal::PastEnd);
//! assert_eq!(why.to_string(), "refused: 3, a chunk runs past the end of the file");
//! # Ok::<(), WavRefusal>(())
//! ```
use crate::ffi;
use std::error::Error;
use std::fmt;

/// The longest file that is not refused for its length.
pub const BYTES: usize = 65536;
/// No accepted file has more samples than this: what is not samples takes 44 bytes at least.
pub const SAMPLES: usize = 32746;

/// Why [`find`] or [`samples`] was refused (`why as u32` is the number). Each but the last is a condition on the whole file, and the lowest number
/// that applies is given. Chunks are walked up to the first `data`, or to the end of the file.
#[derive(Clone, Copy, Debug, PartialEq, Eq)]
#[repr(u32)]
pub enum WavRefusal {
    /// The file has more than [`BYTES`] bytes.
    TooLong = 1,
    /// The file does not begin with `RIFF`, four bytes and `WAVE`.
    NotWave = 2,
    /// A walked chunk, `data` too, or its head runs past the end of the file.
    PastEnd = 3,
    /// No walked chunk is `fmt `, or the first that is has less than 16 bytes.
    NoFormat = 4,
    /// The first `fmt ` has another coding than PCM, another channel count than 1, another width than 16 bits, or a rate that is not 8000, 12000
    /// or 16000.
    OtherFormat = 5,
    /// No walked chunk is `data`.
    NoData = 6,
    /// The first `data` has an odd length.
    OddData = 7,
    /// The part is not twice as long as the row. Only [`samples`] says this.
    Row = 8,
}

/// The number and what it means, as `refused: 6, there is no data`.
impl fmt::Display for WavRefusal {
    fn fmt(&self, f: &mut fmt::Formatter) -> fmt::Result {
        let words = match self {
            WavRefusal::TooLong => "the file is too long",
            WavRefusal::NotWave => "the file is not a WAV file",
            WavRefusal::PastEnd => "a chunk runs past the end of the file",
            WavRefusal::NoFormat => "there is no format, or it is too short",
            WavRefusal::OtherFormat => "the coding, channel count, width or rate is not allowed",
            WavRefusal::NoData => "there is no data",
            WavRefusal::OddData => "the data has an odd length",
            WavRefusal::Row => "the part is not twice as long as the row",
        };
        write!(f, "refused: {}, {words}", *self as u32)
    }
}

impl Error for WavRefusal {}

/// The samples of an accepted file, as bytes of that file, and their rate. Only [`find`] makes one.
#[derive(Clone, Copy, Debug, PartialEq, Eq)]
pub struct Note<'a> {
    part: &'a [u8],
    rate: u32,
}

impl<'a> Note<'a> {
    /// The bytes of the samples, two each, low byte first: a part of the file that was given to [`find`]. It may be empty.
    pub fn part(&self) -> &'a [u8] {
        self.part
    }

    /// How many samples make a second; [`WavRefusal::OtherFormat`] names the rates that there are.
    pub fn rate(&self) -> u32 {
        self.rate
    }

    /// The samples, in a row of their own: at most [`SAMPLES`].
    pub fn samples(&self) -> Vec<i16> {
        let mut row = vec![0; self.part.len() / 2];
        let answer = ffi::wav_samples(self.part, &mut row);
        debug_assert_eq!(answer, 0); // the part of an accepted file has an even length
        row
    }
}

/// Finds the samples of a WAV file. What comes back is a part of that file, not a copy.
pub fn find(file: &[u8]) -> Result<Note<'_>, WavRefusal> {
    let (mut start, mut length, mut rate) = (0, 0, 0);
    accepted(ffi::wav_find(file, &mut start, &mut length, &mut rate))?;
    let (start, length) = (start as usize, length as usize);
    // this cannot panic: start + length is at most the file's length (theorem wav_file:found-inside)
    Ok(Note { part: &file[start..start + length], rate })
}

/// Makes samples of a part, two bytes each, low byte first. Any bytes are taken, of any length that is twice that of the row; else the row is as it
/// was, and the refusal is [`WavRefusal::Row`].
pub fn samples(part: &[u8], row: &mut [i16]) -> Result<(), WavRefusal> {
    accepted(ffi::wav_samples(part, row))
}

fn accepted(answer: u32) -> Result<(), WavRefusal> {
    match answer {
        0 => Ok(()),
        1 => Err(WavRefusal::TooLong),
        2 => Err(WavRefusal::NotWave),
        3 => Err(WavRefusal::PastEnd),
        4 => Err(WavRefusal::NoFormat),
        5 => Err(WavRefusal::OtherFormat),
        6 => Err(WavRefusal::NoData),
        7 => Err(WavRefusal::OddData),
        _ => Err(WavRefusal::Row),
    }
}
