// Makes the file `stdout` of the crate `shaping_replay`: the same arguments, and answers by the lines of `NSQ_del_dec.rs`
// (unopus 0.0.1) themselves, cut out of it word for word, but for the indent, between the marks `cut` and `end`.
//
// To make the file anew, without overflow checks, as the release build is:
//     rustc -O -C overflow-checks=no tests/rust/shaping_replay.rs -o shaping_replay && ./shaping_replay > crates/shaping_replay/stdout
#![allow(non_snake_case, non_camel_case_types, non_upper_case_globals, unused_parens, unused_assignments, clippy::all)]

// cut: lines 2 to 4
pub const silk_int32_MAX: i32 = i32::MAX;
pub const silk_int16_MIN: i32 = i16::MIN as i32;
pub const silk_int16_MAX: i32 = i16::MAX as i32;
// end

// cut: lines 8 to 66
pub unsafe fn silk_noise_shape_quantizer_short_prediction_c(
    buf32: *const i32,
    coef16: *const i16,
    order: i32,
) -> i32 {
    let mut out: i32 = 0;
    out = order >> 1;
    out = (out as i64
        + (*buf32.offset(0 as isize) as i64 * *coef16.offset(0 as isize) as i64 >> 16))
        as i32;
    out = (out as i64
        + (*buf32.offset(-1 as isize) as i64 * *coef16.offset(1 as isize) as i64 >> 16))
        as i32;
    out = (out as i64
        + (*buf32.offset(-(2) as isize) as i64 * *coef16.offset(2 as isize) as i64 >> 16))
        as i32;
    out = (out as i64
        + (*buf32.offset(-(3) as isize) as i64 * *coef16.offset(3 as isize) as i64 >> 16))
        as i32;
    out = (out as i64
        + (*buf32.offset(-(4) as isize) as i64 * *coef16.offset(4 as isize) as i64 >> 16))
        as i32;
    out = (out as i64
        + (*buf32.offset(-(5) as isize) as i64 * *coef16.offset(5 as isize) as i64 >> 16))
        as i32;
    out = (out as i64
        + (*buf32.offset(-(6) as isize) as i64 * *coef16.offset(6 as isize) as i64 >> 16))
        as i32;
    out = (out as i64
        + (*buf32.offset(-(7) as isize) as i64 * *coef16.offset(7 as isize) as i64 >> 16))
        as i32;
    out = (out as i64
        + (*buf32.offset(-(8) as isize) as i64 * *coef16.offset(8 as isize) as i64 >> 16))
        as i32;
    out = (out as i64
        + (*buf32.offset(-(9) as isize) as i64 * *coef16.offset(9 as isize) as i64 >> 16))
        as i32;
    if order == 16 {
        out = (out as i64
            + (*buf32.offset(-(10) as isize) as i64 * *coef16.offset(10 as isize) as i64 >> 16))
            as i32;
        out = (out as i64
            + (*buf32.offset(-(11) as isize) as i64 * *coef16.offset(11 as isize) as i64 >> 16))
            as i32;
        out = (out as i64
            + (*buf32.offset(-(12) as isize) as i64 * *coef16.offset(12 as isize) as i64 >> 16))
            as i32;
        out = (out as i64
            + (*buf32.offset(-(13) as isize) as i64 * *coef16.offset(13 as isize) as i64 >> 16))
            as i32;
        out = (out as i64
            + (*buf32.offset(-(14) as isize) as i64 * *coef16.offset(14 as isize) as i64 >> 16))
            as i32;
        out = (out as i64
            + (*buf32.offset(-(15) as isize) as i64 * *coef16.offset(15 as isize) as i64 >> 16))
            as i32;
    }
    return out;
}
// end

// What the cut lines read and write of a path.
struct NSQ_del_dec_struct {
    sAR2_Q14: [i32; 24],
    Shape_Q14: [i32; 40],
    Q_Q10: [i32; 40],
    Xq_Q14: [i32; 40],
    LF_AR_Q14: i32,
    Diff_Q14: i32,
}

fn path() -> NSQ_del_dec_struct {
    NSQ_del_dec_struct {
        sAR2_Q14: [0; 24],
        Shape_Q14: [0; 40],
        Q_Q10: [0; 40],
        Xq_Q14: [0; 40],
        LF_AR_Q14: 0,
        Diff_Q14: 0,
    }
}

unsafe fn ltp_prediction(row: &[i32; 640], at: usize, b: &[i16]) -> i32 {
    let pred_lag_ptr = row.as_ptr().add(at);
    let b_Q14 = b.as_ptr();
    let mut LTP_pred_Q14: i32;
    // cut: lines 592 to 608
    LTP_pred_Q14 = 2;
    LTP_pred_Q14 = (LTP_pred_Q14 as i64
        + (*pred_lag_ptr.offset(0 as isize) as i64 * *b_Q14.offset(0 as isize) as i64
            >> 16)) as i32;
    LTP_pred_Q14 = (LTP_pred_Q14 as i64
        + (*pred_lag_ptr.offset(-1 as isize) as i64 * *b_Q14.offset(1 as isize) as i64
            >> 16)) as i32;
    LTP_pred_Q14 = (LTP_pred_Q14 as i64
        + (*pred_lag_ptr.offset(-(2) as isize) as i64 * *b_Q14.offset(2 as isize) as i64
            >> 16)) as i32;
    LTP_pred_Q14 = (LTP_pred_Q14 as i64
        + (*pred_lag_ptr.offset(-(3) as isize) as i64 * *b_Q14.offset(3 as isize) as i64
            >> 16)) as i32;
    LTP_pred_Q14 = (LTP_pred_Q14 as i64
        + (*pred_lag_ptr.offset(-(4) as isize) as i64 * *b_Q14.offset(4 as isize) as i64
            >> 16)) as i32;
    LTP_pred_Q14 = ((LTP_pred_Q14 as u32) << 1) as i32;
    // end
    LTP_pred_Q14
}

unsafe fn warped_filter(psDD: *mut NSQ_del_dec_struct, ar: &[i16], order: i32, warping_Q16: i32) -> i32 {
    let AR_shp_Q13 = ar.as_ptr();
    let shapingLPCOrder = order;
    let (mut tmp1, mut tmp2, mut n_AR_Q14, mut j): (i32, i32, i32, i32);
    // cut: lines 638 to 673
    assert!(shapingLPCOrder & 1 == 0);
    tmp2 = ((*psDD).Diff_Q14 as i64
        + ((*psDD).sAR2_Q14[0 as usize] as i64 * warping_Q16 as i16 as i64 >> 16))
        as i32;
    tmp1 = ((*psDD).sAR2_Q14[0 as usize] as i64
        + (((*psDD).sAR2_Q14[1 as usize] - tmp2) as i64 * warping_Q16 as i16 as i64 >> 16))
        as i32;
    (*psDD).sAR2_Q14[0 as usize] = tmp2;
    n_AR_Q14 = shapingLPCOrder >> 1;
    n_AR_Q14 = (n_AR_Q14 as i64
        + (tmp2 as i64 * *AR_shp_Q13.offset(0 as isize) as i64 >> 16))
        as i32;
    j = 2;
    while j < shapingLPCOrder {
        tmp2 = ((*psDD).sAR2_Q14[(j - 1) as usize] as i64
            + (((*psDD).sAR2_Q14[(j + 0) as usize] - tmp1) as i64
                * warping_Q16 as i16 as i64
                >> 16)) as i32;
        (*psDD).sAR2_Q14[(j - 1) as usize] = tmp1;
        n_AR_Q14 = (n_AR_Q14 as i64
            + (tmp1 as i64 * *AR_shp_Q13.offset((j - 1) as isize) as i64 >> 16))
            as i32;
        tmp1 = ((*psDD).sAR2_Q14[(j + 0) as usize] as i64
            + (((*psDD).sAR2_Q14[(j + 1) as usize] - tmp2) as i64
                * warping_Q16 as i16 as i64
                >> 16)) as i32;
        (*psDD).sAR2_Q14[(j + 0) as usize] = tmp2;
        n_AR_Q14 = (n_AR_Q14 as i64
            + (tmp2 as i64 * *AR_shp_Q13.offset(j as isize) as i64 >> 16))
            as i32;
        j += 2;
    }
    (*psDD).sAR2_Q14[(shapingLPCOrder - 1) as usize] = tmp1;
    n_AR_Q14 = (n_AR_Q14 as i64
        + (tmp1 as i64 * *AR_shp_Q13.offset((shapingLPCOrder - 1) as isize) as i64 >> 16))
        as i32;
    // end
    n_AR_Q14
}

unsafe fn n_AR(n: i32, lf_ar: i32, Tilt_Q14: i32) -> i32 {
    let mut p = path();
    p.LF_AR_Q14 = lf_ar;
    let psDD: *mut NSQ_del_dec_struct = &mut p;
    let mut n_AR_Q14 = n;
    // cut: lines 674 to 677
    n_AR_Q14 = ((n_AR_Q14 as u32) << 1) as i32;
    n_AR_Q14 = (n_AR_Q14 as i64 + ((*psDD).LF_AR_Q14 as i64 * Tilt_Q14 as i16 as i64 >> 16))
        as i32;
    n_AR_Q14 = ((n_AR_Q14 as u32) << 2) as i32;
    // end
    n_AR_Q14
}

unsafe fn n_LF(shape: i32, lf_ar: i32, LF_shp_Q14: i32) -> i32 {
    let mut p = path();
    p.LF_AR_Q14 = lf_ar;
    p.Shape_Q14[7] = shape;
    let psDD: *mut NSQ_del_dec_struct = &mut p;
    let smpl_buf_idx: *const i32 = &7;
    let mut n_LF_Q14: i32;
    // cut: lines 678 to 683
    n_LF_Q14 = ((*psDD).Shape_Q14[*smpl_buf_idx as usize] as i64 * LF_shp_Q14 as i16 as i64
        >> 16) as i32;
    n_LF_Q14 = (n_LF_Q14 as i64
        + ((*psDD).LF_AR_Q14 as i64 * (LF_shp_Q14 as i64 >> 16) >> 16))
        as i32;
    n_LF_Q14 = ((n_LF_Q14 as u32) << 2) as i32;
    // end
    n_LF_Q14
}

unsafe fn harm_shape_packed(gain: i32) -> i32 {
    let gains = [gain];
    let HarmShapeGain_Q14 = gains.as_ptr();
    let k = 0;
    let mut HarmShapeFIRPacked_Q14: i32;
    // cut: lines 233 to 235
    HarmShapeFIRPacked_Q14 = *HarmShapeGain_Q14.offset(k as isize) >> 2;
    HarmShapeFIRPacked_Q14 |=
        (((*HarmShapeGain_Q14.offset(k as isize) >> 1) as u32) << 16) as i32;
    // end
    HarmShapeFIRPacked_Q14
}

unsafe fn n_LTP(shp: &[i32; 640], at: usize, HarmShapeFIRPacked_Q14: i32, LTP_pred_Q14: i32) -> i32 {
    let shp_lag_ptr = shp.as_ptr().add(at);
    let mut n_LTP_Q14: i32;
    // cut: lines 614 to 621
    n_LTP_Q14 = ((*shp_lag_ptr.offset(0 as isize) + *shp_lag_ptr.offset(-(2) as isize))
        as i64
        * HarmShapeFIRPacked_Q14 as i16 as i64
        >> 16) as i32;
    n_LTP_Q14 = (n_LTP_Q14 as i64
        + (*shp_lag_ptr.offset(-1 as isize) as i64 * (HarmShapeFIRPacked_Q14 as i64 >> 16)
            >> 16)) as i32;
    n_LTP_Q14 = LTP_pred_Q14 - ((n_LTP_Q14 as u32) << 2) as i32;
    // end
    n_LTP_Q14
}

unsafe fn residual(n_AR_Q14: i32, n_LF_Q14: i32, n_LTP_Q14: i32, LPC_pred_Q14: i32, x: i32) -> i32 {
    let xs = [x];
    let x_Q10 = xs.as_ptr();
    let i = 0;
    let (mut tmp1, tmp2, r_Q10): (i32, i32, i32);
    // cut: lines 684 to 692
    tmp1 = n_AR_Q14 + n_LF_Q14;
    tmp2 = n_LTP_Q14 + LPC_pred_Q14;
    tmp1 = tmp2 - tmp1;
    tmp1 = if 4 == 1 {
        (tmp1 >> 1) + (tmp1 & 1)
    } else {
        (tmp1 >> 4 - 1) + 1 >> 1
    };
    r_Q10 = *x_Q10.offset(i as isize) - tmp1;
    // end
    r_Q10
}

unsafe fn pulse_of(q: i32) -> i8 {
    let mut p = path();
    p.Q_Q10[7] = q;
    let psDD: *mut NSQ_del_dec_struct = &mut p;
    let (i, decisionDelay, last_smple_idx) = (0, 0, 7);
    let mut row = [0i8; 1];
    let pulses = row.as_mut_ptr();
    // cut: lines 861 to 866
    *pulses.offset((i - decisionDelay) as isize) = (if 10 == 1 {
        ((*psDD).Q_Q10[last_smple_idx as usize] >> 1)
            + ((*psDD).Q_Q10[last_smple_idx as usize] & 1)
    } else {
        ((*psDD).Q_Q10[last_smple_idx as usize] >> 10 - 1) + 1 >> 1
    }) as i8;
    // end
    row[0]
}

unsafe fn xq_out8(xq_Q14: i32, gain: i32) -> i16 {
    let mut p = path();
    p.Xq_Q14[7] = xq_Q14;
    let psDD: *mut NSQ_del_dec_struct = &mut p;
    let (i, decisionDelay, last_smple_idx) = (0, 0, 7);
    let gains = [gain; 8];
    let delayedGain_Q10 = gains.as_ptr();
    let mut row = [0i16; 1];
    let xq = row.as_mut_ptr();
    // cut: lines 867 to 921
    *xq.offset((i - decisionDelay) as isize) = (if (if 8 == 1 {
        (((*psDD).Xq_Q14[last_smple_idx as usize] as i64
            * *delayedGain_Q10.offset(last_smple_idx as isize) as i64
            >> 16) as i32
            >> 1)
            + (((*psDD).Xq_Q14[last_smple_idx as usize] as i64
                * *delayedGain_Q10.offset(last_smple_idx as isize) as i64
                >> 16) as i32
                & 1)
    } else {
        (((*psDD).Xq_Q14[last_smple_idx as usize] as i64
            * *delayedGain_Q10.offset(last_smple_idx as isize) as i64
            >> 16) as i32
            >> 8 - 1)
            + 1
            >> 1
    }) > silk_int16_MAX
    {
        silk_int16_MAX
    } else if (if 8 == 1 {
        (((*psDD).Xq_Q14[last_smple_idx as usize] as i64
            * *delayedGain_Q10.offset(last_smple_idx as isize) as i64
            >> 16) as i32
            >> 1)
            + (((*psDD).Xq_Q14[last_smple_idx as usize] as i64
                * *delayedGain_Q10.offset(last_smple_idx as isize) as i64
                >> 16) as i32
                & 1)
    } else {
        (((*psDD).Xq_Q14[last_smple_idx as usize] as i64
            * *delayedGain_Q10.offset(last_smple_idx as isize) as i64
            >> 16) as i32
            >> 8 - 1)
            + 1
            >> 1
    }) < silk_int16_MIN
    {
        silk_int16_MIN
    } else if 8 == 1 {
        (((*psDD).Xq_Q14[last_smple_idx as usize] as i64
            * *delayedGain_Q10.offset(last_smple_idx as isize) as i64
            >> 16) as i32
            >> 1)
            + (((*psDD).Xq_Q14[last_smple_idx as usize] as i64
                * *delayedGain_Q10.offset(last_smple_idx as isize) as i64
                >> 16) as i32
                & 1)
    } else {
        (((*psDD).Xq_Q14[last_smple_idx as usize] as i64
            * *delayedGain_Q10.offset(last_smple_idx as isize) as i64
            >> 16) as i32
            >> 8 - 1)
            + 1
            >> 1
    }) as i16;
    // end
    row[0]
}

unsafe fn xq_out14(xq_Q14: i32, gain: i32) -> i16 {
    let mut p = path();
    p.Xq_Q14[7] = xq_Q14;
    let psDD: *mut NSQ_del_dec_struct = &mut p;
    let (i, decisionDelay, last_smple_idx) = (0, 0, 7);
    let gains = [gain; 2];
    let Gains_Q16 = gains.as_ptr();
    let mut row = [0i16; 1];
    let pxq = row.as_mut_ptr();
    // cut: lines 275 to 330
    *pxq.offset((i - decisionDelay) as isize) = (if (if 14 == 1 {
        (((*psDD).Xq_Q14[last_smple_idx as usize] as i64
            * *Gains_Q16.offset(1 as isize) as i64
            >> 16) as i32
            >> 1)
            + (((*psDD).Xq_Q14[last_smple_idx as usize] as i64
                * *Gains_Q16.offset(1 as isize) as i64
                >> 16) as i32
                & 1)
    } else {
        (((*psDD).Xq_Q14[last_smple_idx as usize] as i64
            * *Gains_Q16.offset(1 as isize) as i64
            >> 16) as i32
            >> 14 - 1)
            + 1
            >> 1
    }) > silk_int16_MAX
    {
        silk_int16_MAX
    } else if (if 14 == 1 {
        (((*psDD).Xq_Q14[last_smple_idx as usize] as i64
            * *Gains_Q16.offset(1 as isize) as i64
            >> 16) as i32
            >> 1)
            + (((*psDD).Xq_Q14[last_smple_idx as usize] as i64
                * *Gains_Q16.offset(1 as isize) as i64
                >> 16) as i32
                & 1)
    } else {
        (((*psDD).Xq_Q14[last_smple_idx as usize] as i64
            * *Gains_Q16.offset(1 as isize) as i64
            >> 16) as i32
            >> 14 - 1)
            + 1
            >> 1
    }) < silk_int16_MIN
    {
        silk_int16_MIN
    } else if 14 == 1 {
        (((*psDD).Xq_Q14[last_smple_idx as usize] as i64
            * *Gains_Q16.offset(1 as isize) as i64
            >> 16) as i32
            >> 1)
            + (((*psDD).Xq_Q14[last_smple_idx as usize] as i64
                * *Gains_Q16.offset(1 as isize) as i64
                >> 16) as i32
                & 1)
    } else {
        (((*psDD).Xq_Q14[last_smple_idx as usize] as i64
            * *Gains_Q16.offset(1 as isize) as i64
            >> 16) as i32
            >> 14 - 1)
            + 1
            >> 1
    })
        as i16;
    // end
    row[0]
}

// ---- the arguments and the digest, as crates/shaping_replay has them
fn rand(seed: i32) -> i32 {
    (seed as u32).wrapping_mul(196314165).wrapping_add(907633515) as i32
}

fn next(seed: i32) -> i32 {
    rand(rand(seed))
}

fn word(seed: i32) -> i32 {
    let any = rand(seed);
    match seed >> 28 {
        -8 => i32::MIN,
        -7 => i32::MAX,
        -6 => 0,
        -5 => -1,
        -4 => any >> 20,
        -3 => any >> 12,
        -2 => any >> 6,
        _ => any,
    }
}

fn half(seed: i32) -> i16 {
    match seed >> 28 {
        -8 => i16::MIN,
        -7 => i16::MAX,
        -6 => 0,
        -5 => -1,
        _ => (rand(seed) >> 16) as i16,
    }
}

fn level(seed: i32) -> i32 {
    if seed < 0 {
        return word(next(seed));
    }
    let near = rand(seed);
    (near >> 20 << 9).wrapping_add(rand(near) >> 30)
}

fn words<const N: usize>(seed: i32) -> [i32; N] {
    let mut row = [0; N];
    let mut at = seed;
    for w in row.iter_mut() {
        at = next(at);
        *w = word(at);
    }
    row
}

fn halves24(seed: i32) -> [i16; 24] {
    let mut row = [0; 24];
    let mut at = seed;
    for w in row.iter_mut() {
        at = next(at);
        *w = half(at);
    }
    row
}

unsafe fn warped(seed: i32, i: usize) -> (i32, [i32; 24]) {
    let b = next(seed);
    let c = next(b);
    let mut p = path();
    p.sAR2_Q14 = words(seed);
    p.Diff_Q14 = word(c);
    let sum = warped_filter(&mut p, &halves24(b), 2 + 2 * (i as i32 % 12), half(b) as i32);
    (sum, p.sAR2_Q14)
}

unsafe fn answer(function: usize, a: i32, i: usize) -> i32 {
    let b = next(a);
    let c = next(b);
    let d = next(c);
    let e = next(d);
    match function {
        0 => {
            let buf: [i32; 96] = words(a);
            let order = if i % 2 == 0 { 10 } else { 16 };
            silk_noise_shape_quantizer_short_prediction_c(buf.as_ptr().add(15 + i % 81), halves24(b).as_ptr(), order)
        }
        1 => ltp_prediction(&words(a), 4 + i % 636, &halves24(b)),
        2 => warped(a, i).0,
        3 => warped(a, i).1.iter().fold(0i32, |all, w| all.wrapping_mul(31).wrapping_add(*w)),
        4 => n_AR(word(a), word(b), word(c)),
        5 => n_LF(word(a), word(b), word(c)),
        6 => harm_shape_packed(word(a)),
        7 => n_LTP(&words(a), 2 + i % 638, word(b), word(c)),
        8 => residual(word(a), word(b), word(c), word(d), word(e)),
        9 => pulse_of(level(a)) as i32,
        10 => xq_out8(word(a), word(b)) as i32,
        _ => xq_out14(word(a), word(b)) as i32,
    }
}

fn main() {
    let names = [
        "short_prediction", "ltp_prediction", "warped_filter, sum", "warped_filter, words", "n_AR", "n_LF",
        "harm_shape_packed", "n_LTP", "residual", "pulse_of", "xq_out8", "xq_out14",
    ];
    for (function, name) in names.iter().enumerate() {
        print!("{name}");
        let mut seed = 1;
        let mut sum: u64 = 0xcbf29ce484222325;
        for i in 0..2000 {
            seed = rand(seed);
            let x = unsafe { answer(function, seed, i) };
            if i < 4 {
                print!(" {x}");
            }
            for byte in x.to_le_bytes() {
                sum = (sum ^ byte as u64).wrapping_mul(0x100000001b3);
            }
        }
        println!(" {sum:016x}");
    }
}
