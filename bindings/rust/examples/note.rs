//! Codes a note from a WAV file: finds the samples in it and codes them in frames of 20 ms, the state handed from one to the next; a rest that is
//! no whole frame is left out. Then tries the file without its last byte, which is refused where that byte is one of the samples, as in
//! examples/vowel.wav. After tools/build-lib:
//!   cargo run --manifest-path bindings/rust/Cargo.toml --example note [FILE]
//! Without a FILE it is examples/vowel.wav of the repository.
use nsq::wav::{self, Note, WavRefusal};
use nsq::{Refusal, Rows, Settings, State};
use std::error::Error;
use std::{env, fs};

const VOWEL: &str = concat!(env!("CARGO_MANIFEST_DIR"), "/../../examples/vowel.wav");

/// Finds the samples of a file and says what came of it.
fn found<'a>(what: &str, file: &'a [u8]) -> Result<Note<'a>, WavRefusal> {
    let found = wav::find(file);
    match found {
        Ok(note) => {
            let start = note.part().as_ptr() as usize - file.as_ptr() as usize; // the part is a slice of the file
            println!("{what}: {} bytes from byte {start} on, {} samples a second", note.part().len(), note.rate());
        }
        Err(why) => println!("{what}: {why}"),
    }
    found
}

/// Codes one frame, with the same plain numbers for each; a real encoder works them out anew, from the sound.
fn code(state: &mut State, x: &[i16], seed: i32, pulses: &mut [i8]) -> Result<i32, Refusal> {
    let l = (x.len() / 4) as i32;
    let settings = Settings {
        subfr_length: l,
        nb_subfr: 4,
        predict_lpc_order: if l == 80 { 16 } else { 10 },
        shaping_lpc_order: 2,
        n_states_delayed_decision: 2,
        warping_q16: 0,
        signal_type: 0,
        quant_offset_type: 0,
        nlsf_interp_coef_q2: 4,
        seed,
        lambda_q10: 1000,
        ltp_scale_q14: 0,
    };
    let mut pred = [0; 32];
    (pred[0], pred[16]) = (3000, 3000); // predict each sample as 3000 / 4096 of the one before
    let rows = Rows {
        x,
        pred_coef_q12: &pred,
        ltp_coef_q14: &[0; 20],
        ar_q13: &[0; 96],
        harm_shape_gain_q14: &[0; 4],
        tilt_q14: &[0; 4],
        lf_shp_q14: &[0; 4],
        gains_q16: &[65536 * 200; 4], // a step of the pulses is about 200
        pitch_l: &[0; 4],
    };
    state.code(&settings, &rows, pulses)
}

fn main() -> Result<(), Box<dyn Error>> {
    let file = fs::read(env::args().nth(1).unwrap_or(VOWEL.into()))?;
    let note = found("the file", &file)?;
    let samples = note.samples();
    println!("{} samples:{} ..", samples.len(), samples.iter().take(10).map(|s| format!(" {s}")).collect::<String>());
    let mut state = State::fresh();
    let n = note.rate() as usize / 50; // 20 ms: L is 40, 60 or 80
    for (frame, x) in samples.chunks_exact(n).enumerate() {
        let mut pulses = vec![0; n];
        let seed = code(&mut state, x, frame as i32 & 3, &mut pulses)?;
        println!("frame {frame}: coded, seed {seed}");
        for line in pulses.chunks(20) {
            println!("{}", line.iter().map(|p| p.to_string()).collect::<Vec<_>>().join(" "));
        }
    }
    let _ = found("without its last byte", &file[..file.len() - 1]); // it has been said what came of it
    Ok(())
}
