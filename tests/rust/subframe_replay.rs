//! Writes the file `stdout` of the program subframe_replay, by the Rust of unopus 0.0.1: `silk_nsq_del_dec_scale_states`, then
//! `silk_noise_shape_quantizer_del_dec`, on the same settings and rows. Here `unopus_nsq` is a library of its sources src/silk/*.rs with
//! public modules and with both functions of NSQ_del_dec.rs public (`sed -i 's/^unsafe fn silk_n/pub unsafe fn silk_n/'`). Build it with
//! this program for release, without overflow checks, and run `subframe_replay > stdout`. Of each path's LPC words the digest has those that
//! count after a subframe of L samples, 0 to 15 and L to L + 15: the Rust keeps the first i LPC words of a path that is replaced at sample i,
//! which nothing reads again, and the port copies whole paths.
#![allow(non_snake_case)]
use unopus_nsq::silk::structs::{silk_encoder_state, silk_nsq_state};
use unopus_nsq::silk::NSQ_del_dec::{silk_noise_shape_quantizer_del_dec, silk_nsq_del_dec_scale_states, NSQ_del_dec_struct};

fn rand(seed: i32) -> i32 {
    907633515_u32.wrapping_add((seed as u32).wrapping_mul(196314165)) as i32
}

fn next(seed: i32) -> i32 {
    rand(rand(seed))
}

// The seed of row number `by`.
fn seed_of(seed: i32, by: usize) -> i32 {
    rand(seed.wrapping_add((by as i32).wrapping_mul(1640531527)))
}

// ---- words
fn word(seed: i32, shift: u32) -> i32 {
    let any = rand(seed);
    if shift > 0 {
        return any >> shift;
    }
    match seed >> 28 {
        -8 => i32::MIN,
        -7 => i32::MAX,
        -6 => 0,
        -5 => -1,
        -4 => any >> 20,
        -3 => any >> 12,
        _ => any,
    }
}

fn half(seed: i32, shift: u32) -> i16 {
    let any = (rand(seed) >> 16) as i16;
    if shift > 0 {
        return any >> shift;
    }
    match seed >> 28 {
        -8 => i16::MIN,
        -7 => i16::MAX,
        -6 => 0,
        _ => any,
    }
}

fn fill(row: &mut [i32], seed: i32, shift: u32) {
    let mut at = seed;
    for x in row {
        at = next(at);
        *x = word(at, shift);
    }
}

fn fill_halves(row: &mut [i16], seed: i32, shift: u32) {
    let mut at = seed;
    for x in row {
        at = next(at);
        *x = half(at, shift);
    }
}

fn halves<const N: usize>(seed: i32, shift: u32) -> [i16; N] {
    let mut row = [0; N];
    fill_halves(&mut row, seed, shift);
    row
}

fn words<const N: usize>(seed: i32, shift: u32) -> [i32; N] {
    let mut row = [0; N];
    fill(&mut row, seed, shift);
    row
}

// ---- settings
const LENGTHS: [usize; 3] = [40, 60, 80];
const ORDERS: [usize; 3] = [10, 10, 16];
const SHAPINGS: [usize; 4] = [2, 12, 16, 24];
const OFFSETS: [i32; 4] = [100, 240, 32, 100];
const GAINS: [i32; 8] = [65536, 1, 81920, 2147483647, 400000, 1073741824, 30000000, 16];
const SHIFTS: [u32; 4] = [0, 7, 12, 17];
const HALF_SHIFTS: [u32; 4] = [0, 3, 5, 7];

struct Case {
    n: usize,
    l: usize,
    order: usize,
    shaping: usize,
    voiced: bool,
    k: usize,
    lag: usize,
    delay: usize,
    buf: usize,
    first: bool,
    rewhitened: bool,
    shift: u32,
    half_shift: u32,
    gain: i32,
    prev: i32,
}

fn case_of(c: usize) -> Case {
    let l = LENGTHS[c / 4 % 3];
    let voiced = c / 48 % 2 == 1;
    let k = c * 5 / 3 % 4;
    let rewhitened = voiced && k % 2 == 0;
    let span = 16 * l / 5 + 1;
    let lag = if voiced || c % 3 > 0 { 2 * l / 5 + c * 37 % span } else { 0 };
    let near = if lag < 43 { lag - lag.min(3) } else { 40 };
    let delay = if voiced { near } else { 13 + c % 28 };
    Case {
        n: 1 + c % 4,
        l,
        order: ORDERS[c / 4 % 3],
        shaping: SHAPINGS[c / 12 % 4],
        voiced,
        k,
        lag,
        delay,
        buf: 4 * l + if rewhitened { 0 } else { k * l },
        first: k == 0 || c % 7 == 3,
        rewhitened,
        shift: SHIFTS[c / 96 % 4],
        half_shift: HALF_SHIFTS[c / 96 % 4],
        gain: GAINS[c * 3 % 8],
        prev: GAINS[(c * 3 + c / 8) % 8],
    }
}

// ---- digests
struct Digest(u32);

impl Digest {
    fn new() -> Self {
        Self(2166136261)
    }
    fn word(&mut self, x: i32) {
        self.0 = (self.0 ^ x as u32).wrapping_mul(16777619);
    }
    fn words(&mut self, row: &[i32]) {
        for &x in row {
            self.word(x);
        }
    }
    fn put(self, end: &str) {
        print!("{:08x}{}", self.0, end);
    }
}

fn print_rows(ps: &[NSQ_del_dec_struct; 4], nsq: &silk_nsq_state, ltp: &[i32; 640], dgain: &[i32; 40], pulses: &[i8; 320], at: i32, l: usize) {
    let mut d = Digest::new();
    d.word(at);
    for p in ps {
        d.words(&p.sAR2_Q14);
        d.words(&[p.LF_AR_Q14, p.Diff_Q14, p.Seed, p.SeedInit, p.RD_Q10]);
    }
    d.put(" ");
    let mut d = Digest::new();
    for p in ps {
        d.words(&p.sLPC_Q14[..16]);
        d.words(&p.sLPC_Q14[l..l + 16]);
    }
    d.put(" ");
    let mut d = Digest::new();
    for p in ps {
        for ring in [&p.RandState, &p.Q_Q10, &p.Xq_Q14, &p.Pred_Q15, &p.Shape_Q14] {
            d.words(ring);
        }
    }
    d.put(" ");
    let mut d = Digest::new();
    d.words(ltp);
    d.put(" ");
    let mut d = Digest::new();
    d.words(dgain);
    d.put(" ");
    let mut d = Digest::new();
    nsq.xq.iter().for_each(|&x| d.word(x as i32));
    d.put(" ");
    let mut d = Digest::new();
    d.words(&nsq.sLTP_shp_Q14);
    d.put(" ");
    let mut d = Digest::new();
    pulses.iter().for_each(|&x| d.word(x as i32));
    d.put("\n");
}

// ---- one case
// `own` is the seed of the words that twins share.
fn path(seed: i32, own: i32, s: u32) -> NSQ_del_dec_struct {
    // the generator's words are of one bit where words are short: so that paths share them now and then
    let states = if s > 0 { 31 } else { 0 };
    NSQ_del_dec_struct {
        sLPC_Q14: words(seed_of(own, 1), s),
        RandState: words(seed_of(seed, 2), states),
        Q_Q10: words(seed_of(seed, 3), s),
        Xq_Q14: words(seed_of(seed, 4), s),
        Pred_Q15: words(seed_of(seed, 5), s),
        Shape_Q14: words(seed_of(own, 6), s),
        sAR2_Q14: words(seed_of(own, 7), s),
        LF_AR_Q14: word(seed_of(own, 8), s),
        Diff_Q14: word(seed_of(own, 9), s),
        Seed: word(seed_of(own, 10), 0),
        SeedInit: word(seed_of(own, 11), s),
        RD_Q10: word(seed_of(own, 12), s),
    }
}

fn run(c: usize, seed: i32) {
    let f = case_of(c);
    let (s, h) = (f.shift, f.half_shift);
    let mut ps = [1, 2, 3, 4].map(|k| path(seed_of(seed, k), seed_of(seed, if c % 5 == 4 { 1 } else { k }), s));
    let mut nsq: Box<silk_nsq_state> = unsafe { Box::new(std::mem::zeroed()) };
    nsq.xq = halves(seed_of(seed, 5), h);
    nsq.sLTP_shp_Q14 = words(seed_of(seed, 6), s);
    let base = f.k * f.l;
    nsq.sLTP_buf_idx = f.buf as i32;
    nsq.sLTP_shp_buf_idx = (4 * f.l + base) as i32;
    nsq.prev_gain_Q16 = f.prev;
    nsq.rewhite_flag = f.rewhitened as i32;
    let mut ltp: [i32; 640] = words(seed_of(seed, 7), s);
    let sltp: [i16; 640] = halves(seed_of(seed, 8), h);
    let mut dgain: [i32; 40] = words(seed_of(seed, 9), s);
    let mut pulses = [0i8; 320];
    let x: [i16; 320] = halves(seed_of(seed, 10), h);
    let a: [i16; 16] = halves(seed_of(seed, 11), h);
    let b: [i16; 5] = halves(seed_of(seed, 12), h);
    let ar: [i16; 24] = halves(seed_of(seed, 13), h);
    let one = |by| word(seed_of(seed, by), s);
    let (lambda, lf, tilt, harm, warping, scale) = (one(14), one(15), one(16), one(17), one(18), one(19));
    let mut at = (c * 7 % 40) as i32;
    let mut room = Box::new(std::mem::MaybeUninit::<silk_encoder_state>::zeroed());
    let enc = room.as_mut_ptr();
    let kind = if f.voiced { 2 } else { 1 };
    let mut x_sc = [0i32; 80];
    unsafe {
        (*enc).subfr_length = f.l as i32;
        (*enc).ltp_mem_length = 4 * f.l as i32;
        silk_nsq_del_dec_scale_states(
            enc, &mut *nsq, ps.as_mut_ptr(), x.as_ptr().add(base), x_sc.as_mut_ptr(), sltp.as_ptr(), ltp.as_mut_ptr(), f.k as i32, f.n as i32,
            scale, [f.gain; 4].as_ptr(), [f.lag as i32; 4].as_ptr(), kind, f.delay as i32,
        );
        assert!(nsq.prev_gain_Q16 == f.gain);
        let xq = nsq.xq.as_mut_ptr().add(4 * f.l + base);
        silk_noise_shape_quantizer_del_dec(
            &mut *nsq, ps.as_mut_ptr(), kind, x_sc.as_ptr(), pulses.as_mut_ptr().add(base), xq, ltp.as_mut_ptr(), dgain.as_mut_ptr(), a.as_ptr(),
            b.as_ptr(), ar.as_ptr(), f.lag as i32, harm, tilt, lf, f.gain, lambda, OFFSETS[c % 4], f.l as i32, if f.first { 0 } else { 1 },
            f.shaping as i32, f.order as i32, warping, f.n as i32, &mut at, f.delay as i32, 0,
        );
    }
    print_rows(&ps, &nsq, &ltp, &dgain, &pulses, at, f.l);
}

fn main() {
    let mut seed = 1;
    for c in 0..384 {
        seed = rand(seed);
        run(c, seed);
    }
}
