//! Streams of calls, by a fixed generator: the same COUNT and SEED give the same stream.
use crate::call::{Call, Start, State, GAIN, LAG};
use std::io::Write;

struct Rng(u64);

impl Rng {
    fn next(&mut self) -> u64 {
        self.0 ^= self.0 << 13;
        self.0 ^= self.0 >> 7;
        self.0 ^= self.0 << 17;
        self.0.wrapping_mul(0x2545f4914f6cdd1d) >> 16
    }

    fn below(&mut self, n: u64) -> u64 {
        self.next() % n
    }

    fn chance(&mut self, k: u64, of: u64) -> bool {
        self.below(of) < k
    }

    fn pick<T: Copy>(&mut self, from: &[T]) -> T {
        from[self.below(from.len() as u64) as usize]
    }

    /// a word of at most `bits` bits with its sign; now and then an end of that range
    fn word(&mut self, bits: u32) -> i64 {
        let half = 1i64 << (bits - 1);
        match self.below(24) {
            0 => half - 1,
            1 => -half,
            2 => 0,
            _ => (self.next() & (2 * half as u64 - 1)) as i64 - half,
        }
    }

    fn shorts(&mut self, n: usize, bits: u32) -> Vec<i16> {
        (0..n).map(|_| self.word(bits) as i16).collect()
    }

    fn longs(&mut self, n: usize, bits: u32) -> Vec<i32> {
        (0..n).map(|_| self.word(bits) as i32).collect()
    }

    fn lag(&mut self, l: i32) -> i32 {
        match self.below(8) {
            0 => 2 * l / 5,
            1 => 18 * l / 5,
            _ => 2 * l / 5 + self.below((16 * l / 5 + 1) as u64) as i32,
        }
    }

    fn gain(&mut self) -> i32 {
        let bits = 1 + self.below(31) as u32;
        if self.chance(1, 12) { self.pick(&[1, 2, 65535, 65536, i32::MAX]) } else { ((self.next() as i64 & ((1 << bits) - 1)).max(1)) as i32 }
    }

    fn state(&mut self, l: i32) -> State {
        let bits = self.pick(&[32, 30, 24, 18, 12]);
        let words: Vec<i32> = self.shorts(640, 16.min(bits)).iter().map(|&w| w as i32).collect();
        let mut s = State::from(&[words, self.longs(768, bits)].concat());
        s.rest[LAG] = if self.chance(1, 3) { 0 } else { self.lag(l) };
        s.rest[GAIN] = self.gain();
        s
    }
}

/// a call that is accepted where its state's lag is good for L
fn good(r: &mut Rng, name: String) -> Call {
    let (l, n) = (r.pick(&[40, 60, 80]), r.pick(&[2, 4]));
    let (m, wild) = (n as usize, r.chance(1, 3));
    let bits = |r: &mut Rng, mild: u32, most: u32| if wild { most } else { mild.min(1 + r.below(mild as u64) as u32).max(2) };
    let kind = r.below(3) as i32;
    let (warp, lambda, scale) = if wild { (32, 32, 32) } else { (15, 12, 15) };
    let settings = [
        l, n, if l == 80 { 16 } else { 10 }, 2 + 2 * r.below(12) as i32, 1 + r.below(4) as i32, r.word(warp) as i32, kind, r.below(2) as i32,
        r.below(5) as i32, r.below(4) as i32, r.word(lambda) as i32, r.word(scale) as i32,
    ];
    let x = { let b = bits(r, 16, 16); r.shorts((n * l) as usize, b) };
    let pred = { let b = bits(r, 13, 16); r.shorts(32, b) };
    let ltp = { let b = bits(r, 14, 16); r.shorts(5 * m, b) };
    let ar = { let b = bits(r, 13, 16); r.shorts(24 * m, b) };
    let words = if wild { 32 } else { 15 };
    let gain = r.gain();
    let gains = (0..m).map(|_| if r.chance(1, 3) { r.gain() } else { gain }).collect();
    let mut lags: Vec<i32> = (0..m).map(|_| r.lag(l)).collect();
    if kind != 2 && r.chance(2, 3) {
        lags = vec![0; m];
    }
    let longs = vec![r.longs(m, words), r.longs(m, words), r.longs(m, 32), gains, lags];
    let start = match r.below(4) {
        0 => Start::Fresh,
        1 => Start::Given(Box::new(r.state(l))),
        _ => Start::Prev,
    };
    Call { name, settings, shorts: vec![x, pred, ltp, ar], longs, start }
}

/// one thing of a call is spoilt, or nearly
fn spoil(r: &mut Rng, c: &mut Call) {
    let n = c.settings[1] as u64;
    match r.below(5) {
        0 => {
            let k = r.pick(&[0, 1, 2, 3, 4, 6, 7, 8, 9]);
            c.settings[k] += r.pick(&[-1, 1, 2, -40, 20, 1000, i32::MIN]);
        }
        1 => {
            let row = &mut c.shorts[r.below(4) as usize];
            if r.chance(1, 2) { row.push(1); } else { row.truncate(r.below(row.len() as u64) as usize); }
        }
        2 => {
            let row = &mut c.longs[r.below(5) as usize];
            if r.chance(1, 2) { row.push(1); } else { row.truncate(r.below(n) as usize); }
        }
        3 => c.longs[3][r.below(n) as usize] = r.pick(&[0, -1, i32::MIN, 1]),
        _ => {
            let l = c.settings[0];
            c.longs[4][r.below(n) as usize] = r.pick(&[2 * l / 5 - 1, 18 * l / 5 + 1, -1, 1, 0, i32::MAX, i32::MIN]);
        }
    }
}

pub fn calls(count: u64, seed: u64, out: &mut dyn Write) {
    let mut r = Rng(seed.wrapping_mul(0x9e3779b97f4a7c15) | 1);
    for k in 0..count {
        let mut c = good(&mut r, format!("g{}.{}", seed, k));
        if r.chance(1, 8) {
            spoil(&mut r, &mut c);
        }
        out.write_all(c.text().as_bytes()).unwrap();
    }
}
