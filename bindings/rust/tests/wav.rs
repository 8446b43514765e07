//! WAV files through the wrapper: that what comes back is a slice of the caller's own file, each refusal, and rows that do not fit. The files are
//! made here, byte by byte.
use nsq::wav::{find, samples, Note, WavRefusal, BYTES, SAMPLES};
use std::error::Error;
use std::ops::Range;

/// PCM, one channel, 16000 samples a second, 32000 bytes a second, 2 bytes a sample, 16 bits
const FORMAT: [u8; 16] = [1, 0, 1, 0, 0x80, 0x3e, 0, 0, 0, 0x7d, 0, 0, 2, 0, 16, 0];

/// a chunk with its head, and its pad byte where it has one
fn chunk(name: &[u8; 4], content: &[u8]) -> Vec<u8> {
    let mut bytes = [&name[..], &(content.len() as u32).to_le_bytes(), content].concat();
    bytes.resize(bytes.len().next_multiple_of(2), 0xee);
    bytes
}

/// a file of these chunks
fn wave(chunks: &[Vec<u8>]) -> Vec<u8> {
    let chunks = chunks.concat();
    [b"RIFF", &(4 + chunks.len() as u32).to_le_bytes()[..], b"WAVE", &chunks].concat()
}

/// the plain file: a head of 44 bytes, then the bytes of the samples
fn plain(content: &[u8]) -> Vec<u8> {
    wave(&[chunk(b"fmt ", &FORMAT), chunk(b"data", content)])
}

fn bytes_of(samples: &[i16]) -> Vec<u8> {
    samples.iter().flat_map(|s| s.to_le_bytes()).collect()
}

/// the part must be the very bytes of the file at these places, not others that are equal
fn lies_at(note: &Note, file: &[u8], places: Range<usize>) {
    assert_eq!(note.part().as_ptr_range(), file[places].as_ptr_range());
}

#[test]
fn samples_come_back() {
    let sound: Vec<i16> = [0, 1, -1, 255, 256, -256, i16::MIN, i16::MAX].into_iter().chain((0..500).map(|i: i16| i.wrapping_mul(7919))).collect();
    let file = plain(&bytes_of(&sound));
    let note = find(&file).unwrap();
    lies_at(&note, &file, 44..file.len());
    assert_eq!(note.rate(), 16000);
    assert_eq!(note.samples(), sound);
    let mut row = vec![77; sound.len()];
    assert_eq!(samples(note.part(), &mut row), Ok(()));
    assert_eq!(row, sound);
}

#[test]
fn the_part_outlives_the_note() {
    let file = plain(&[1, 2, 3, 4]);
    let part = {
        let note = find(&file).unwrap();
        note.part()
    };
    assert_eq!(part, [1, 2, 3, 4]);
}

#[test]
fn each_rate_is_found() {
    for rate in [8000u32, 12000, 16000] {
        let mut file = plain(&[5, 6]);
        file[24..28].copy_from_slice(&rate.to_le_bytes());
        assert_eq!(find(&file).map(|note| note.rate()), Ok(rate));
    }
}

#[test]
fn other_chunks_are_walked_over() {
    let list = chunk(b"LIST", b"abc"); // odd: a pad byte follows, so it takes 12 bytes
    let file = wave(&[list.clone(), chunk(b"fmt ", &FORMAT), list.clone(), chunk(b"data", &[7, 8]), chunk(b"data", &[9]), b"rest".to_vec()]);
    let note = find(&file).unwrap();
    lies_at(&note, &file, 68..70);
    assert_eq!(note.samples(), [0x0807]);
}

#[test]
fn an_empty_part_is_a_part() {
    let file = plain(&[]);
    let note = find(&file).unwrap();
    lies_at(&note, &file, 44..44);
    assert_eq!((note.rate(), note.samples()), (16000, vec![]));
    assert_eq!(samples(note.part(), &mut []), Ok(()));
    assert_eq!(samples(&[], &mut []), Ok(()));
}

#[test]
fn the_longest_file() {
    let mut file = plain(&vec![3; 2 * SAMPLES]);
    assert_eq!(file.len(), BYTES);
    let note = find(&file).unwrap();
    lies_at(&note, &file, 44..BYTES);
    assert_eq!(note.samples(), [0x0303; SAMPLES]);
    file.push(0);
    assert_eq!(find(&file), Err(WavRefusal::TooLong));
}

#[test]
fn each_refusal_of_a_file() {
    let (format, data) = (chunk(b"fmt ", &FORMAT), chunk(b"data", &[1, 2]));
    let good = wave(&[format.clone(), data.clone()]);
    assert!(find(&good).is_ok());
    let mut other = FORMAT;
    other[2] = 2; // two channels
    for (file, why) in [
        (vec![0; BYTES + 1], WavRefusal::TooLong),
        (vec![], WavRefusal::NotWave),
        ([b"RIFX", &good[4..]].concat(), WavRefusal::NotWave),
        (good[..good.len() - 1].to_vec(), WavRefusal::PastEnd),
        (wave(std::slice::from_ref(&data)), WavRefusal::NoFormat),
        (wave(&[chunk(b"fmt ", &FORMAT[..14]), data.clone()]), WavRefusal::NoFormat),
        (wave(&[chunk(b"fmt ", &other), data.clone()]), WavRefusal::OtherFormat),
        (wave(std::slice::from_ref(&format)), WavRefusal::NoData),
        (wave(&[format.clone(), chunk(b"data", &[1, 2, 3])]), WavRefusal::OddData),
        // the lowest number, not the first fault: another format, and behind it data that runs past the end
        (wave(&[chunk(b"fmt ", &other), b"data\xff\xff\xff\xff".to_vec()]), WavRefusal::PastEnd),
    ] {
        assert_eq!(find(&file), Err(why));
    }
}

#[test]
fn a_row_that_does_not_fit_is_as_it_was() {
    for (bytes, len) in [(0, 1), (1, 0), (1, 1), (2, 0), (2, 2), (3, 1), (3, 2), (40, 19), (40, 21), (2 * BYTES, BYTES + 1)] {
        let mut row = vec![77; len];
        assert_eq!(samples(&vec![1; bytes], &mut row), Err(WavRefusal::Row));
        assert_eq!(row, vec![77; len]);
    }
}

#[test]
fn any_bytes_are_samples() {
    // longer than any file that is accepted
    let mut row = vec![77; BYTES];
    assert_eq!(samples(&vec![1; 2 * BYTES], &mut row), Ok(()));
    assert_eq!(row, vec![0x0101; BYTES]);
}

#[test]
fn refusals_are_errors() {
    fn read(file: &[u8], row: &mut [i16]) -> Result<u32, Box<dyn Error>> {
        let note = find(file)?;
        samples(note.part(), row)?;
        Ok(note.rate())
    }
    let file = plain(&[1, 2]);
    assert_eq!(read(&file, &mut [0]).unwrap(), 16000);
    assert_eq!(read(&file[..20], &mut [0]).unwrap_err().downcast_ref(), Some(&WavRefusal::PastEnd));
    assert_eq!(read(&file, &mut [0; 2]).unwrap_err().downcast_ref(), Some(&WavRefusal::Row));
}
