//! The bridge to the Rust, and the refusals of docs/RULES.md.
use crate::call::{Call, Start, State, GAIN, LAG};
use nsq_rust::silk::structs::{silk_encoder_state, silk_nsq_state, SideInfoIndices};
use nsq_rust::silk::NSQ_del_dec::silk_NSQ_del_dec_c;
use std::mem::MaybeUninit;
use std::time::Instant;

fn good_lag(l: i32, lag: i32) -> bool {
    2 * l / 5 <= lag && lag <= 18 * l / 5
}

/// the lowest number of docs/RULES.md, "Which number comes back", that applies, else 0
fn refusal(c: &Call, s: &State, pulses: usize) -> u32 {
    let [l, n, order, shaping, paths, _, kind, offset, interp, seed, _, _] = c.settings;
    if ![40, 60, 80].contains(&l) || ![2, 4].contains(&n) {
        return 1;
    }
    if order != (if l == 80 { 16 } else { 10 }) || !(2..=24).contains(&shaping) || shaping % 2 != 0 {
        return 2;
    }
    if !(1..=4).contains(&paths) {
        return 3;
    }
    if !(0..=2).contains(&kind) || !(0..=1).contains(&offset) || !(0..=4).contains(&interp) || !(0..=3).contains(&seed) {
        return 4;
    }
    let (n, frame) = (n as usize, (n * l) as usize);
    let shorts: Vec<usize> = c.shorts.iter().map(|r| r.len()).collect();
    if shorts != [frame, 32, 5 * n, 24 * n] || c.longs.iter().any(|r| r.len() != n) || pulses != frame {
        return 5;
    }
    if s.rest[GAIN] < 1 || c.longs[3].iter().any(|&g| g < 1) {
        return 6;
    }
    let lags = &c.longs[4];
    let quiet = |lag: i32| lag == 0 || good_lag(l, lag);
    let fine = if kind == 2 { lags.iter().all(|&g| good_lag(l, g)) } else { quiet(s.rest[LAG]) && quiet(lags[n - 1]) };
    if fine { 0 } else { 7 }
}

fn encoder(c: &Call) -> Box<MaybeUninit<silk_encoder_state>> {
    let mut e: Box<MaybeUninit<silk_encoder_state>> = Box::new(MaybeUninit::zeroed());
    let (p, s) = (e.as_mut_ptr(), &c.settings);
    unsafe {
        (*p).subfr_length = s[0];
        (*p).nb_subfr = s[1];
        (*p).frame_length = s[0] * s[1];
        (*p).ltp_mem_length = 4 * s[0];
        (*p).predictLPCOrder = s[2];
        (*p).shapingLPCOrder = s[3];
        (*p).nStatesDelayedDecision = s[4];
        (*p).warping_Q16 = s[5];
    }
    e
}

fn indices(c: &Call) -> SideInfoIndices {
    let mut i: SideInfoIndices = unsafe { MaybeUninit::zeroed().assume_init() };
    i.signalType = c.settings[6] as i8;
    i.quantOffsetType = c.settings[7] as i8;
    i.NLSFInterpCoef_Q2 = c.settings[8] as i8;
    i.Seed = c.settings[9] as i8;
    i
}

fn state_in(s: &State) -> Box<silk_nsq_state> {
    let mut z: Box<silk_nsq_state> = unsafe { Box::new(MaybeUninit::zeroed().assume_init()) };
    (z.xq, z.sLTP_shp_Q14, z.sLPC_Q14, z.sAR2_Q14) = (s.xq, s.shp, s.lpc, s.ar2);
    [z.sLF_AR_shp_Q14, z.sDiff_shp_Q14, z.lagPrev, z.sLTP_buf_idx, z.sLTP_shp_buf_idx, z.rand_seed, z.prev_gain_Q16, z.rewhite_flag] = s.rest;
    z
}

fn state_out(z: &silk_nsq_state) -> State {
    let rest = [z.sLF_AR_shp_Q14, z.sDiff_shp_Q14, z.lagPrev, z.sLTP_buf_idx, z.sLTP_shp_buf_idx, z.rand_seed, z.prev_gain_Q16, z.rewhite_flag];
    State { xq: z.xq, shp: z.sLTP_shp_Q14, lpc: z.sLPC_Q14, ar2: z.sAR2_Q14, rest }
}

unsafe fn quantise(e: *const silk_encoder_state, z: &mut silk_nsq_state, i: &mut SideInfoIndices, c: &Call, pulses: &mut [i8]) {
    let (s, l) = (&c.shorts, &c.longs);
    silk_NSQ_del_dec_c(
        e, z, i, s[0].as_ptr(), pulses.as_mut_ptr(), s[1].as_ptr(), s[2].as_ptr(), s[3].as_ptr(), l[0].as_ptr(), l[1].as_ptr(), l[2].as_ptr(),
        l[3].as_ptr(), l[4].as_ptr(), c.settings[10], c.settings[11],
    )
}

/// answer and seed; the state and the pulses change where the answer is 0
pub fn run(c: &Call, s: &mut State, pulses: &mut [i8]) -> (u32, i32) {
    let answer = refusal(c, s, pulses.len());
    if answer != 0 {
        return (answer, c.settings[9]);
    }
    let (e, mut i, mut z) = (encoder(c), indices(c), state_in(s));
    unsafe { quantise(e.as_ptr(), &mut z, &mut i, c, pulses) };
    *s = state_out(&z);
    (0, i.Seed as i32)
}

/// every call starts from the state that it gives, else from a fresh one; the copy of that state is timed too
pub fn bench(mut calls: Vec<Call>, rep: usize) {
    let states: Vec<_> = calls.iter().map(|c| if let Start::Given(s) = &c.start { state_in(s) } else { state_in(&State::fresh()) }).collect();
    for order in [24, 16] {
        for paths in [1, 2, 4] {
            for c in calls.iter_mut() {
                c.settings[3] = order;
                c.settings[4] = paths;
            }
            let encoders: Vec<_> = calls.iter().map(encoder).collect();
            let (mut sum, mut z) = (0u32, states[0].clone());
            let mut times: Vec<f64> = (0..rep)
                .map(|_| {
                    let start = Instant::now();
                    for (k, c) in calls.iter().enumerate() {
                        *z = *states[k];
                        let (mut i, mut pulses) = (indices(c), [0i8; 320]);
                        unsafe { quantise(encoders[k].as_ptr(), &mut z, &mut i, c, &mut pulses) };
                        sum = sum.wrapping_mul(31).wrapping_add(pulses[7] as u32).wrapping_add(pulses[99] as u32).wrapping_add(i.Seed as u32);
                    }
                    start.elapsed().as_nanos() as f64 / calls.len() as f64
                })
                .collect();
            times.sort_by(|a, b| a.total_cmp(b));
            println!("Rust  paths {} order {}: best {:.0} median {:.0} worst {:.0} ns/frame (sum {})", paths, order, times[0], times[rep / 2], times[rep - 1], sum);
        }
    }
}
