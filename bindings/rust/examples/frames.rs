//! Codes three frames of a tone, the state handed from one to the next, and prints the pulses and the first ten values of the excitation that
//! the far end makes of them. After tools/build-lib:
//!   cargo run --manifest-path bindings/rust/Cargo.toml --example frames
use nsq::{excitation, Rows, Settings, State};
use std::error::Error;

const L: usize = 40;
const N: usize = 2 * L;

fn main() -> Result<(), Box<dyn Error>> {
    let mut pred = [0i16; 32];
    pred[0] = 3000; // predict each sample as 3000 / 4096 of the one before
    pred[16] = 3000;
    let mut state = State::fresh();
    for frame in 0..3 {
        let settings = Settings {
            subfr_length: L as i32,
            nb_subfr: 2,
            predict_lpc_order: 10,
            shaping_lpc_order: 2,
            n_states_delayed_decision: 2,
            warping_q16: 0,
            signal_type: 0,
            quant_offset_type: 0,
            nlsf_interp_coef_q2: 4,
            seed: frame & 3,
            lambda_q10: 1000,
            ltp_scale_q14: 0,
        };
        let height = 900 * (frame as i16 + 1);
        let x: Vec<i16> = (0..N).map(|i| if i % 20 < 10 { height } else { -height }).collect();
        let rows = Rows {
            x: &x,
            pred_coef_q12: &pred,
            ltp_coef_q14: &[0; 10],
            ar_q13: &[0; 48],
            harm_shape_gain_q14: &[0; 2],
            tilt_q14: &[-2000; 2],
            lf_shp_q14: &[0; 2],
            gains_q16: &[65536 * 400; 2],
            pitch_l: &[0; 2],
        };
        let mut pulses = [0i8; N];
        let seed = state.code(&settings, &rows, &mut pulses)?;
        println!("frame {frame}: answer 0, seed {seed}");
        for line in pulses.chunks(20) {
            println!("{}", line.iter().map(|p| p.to_string()).collect::<Vec<_>>().join(" "));
        }
        let mut heard = [0i32; N];
        excitation(&pulses, seed, settings.signal_type, settings.quant_offset_type, &mut heard)?;
        println!("heard: {} ..", heard[..10].iter().map(|e| e.to_string()).collect::<Vec<_>>().join(" "));
    }
    Ok(())
}
