// The Rust's half of crates/silk_replay: prints, one number to a line, what unopus 0.0.1 answers to the same arguments.
// Build it for release, without overflow checks, over the crate's `src/silk` (here as the crate `unopus_nsq`); what it
// prints is crates/silk_replay/stdout.
use unopus_nsq::silk::Inlines::{silk_DIV32_varQ, silk_INVERSE32_varQ};
use unopus_nsq::silk::LPC_analysis_filter::silk_LPC_analysis_filter;

fn rand(seed: i32) -> i32 {
    (907633515 as u32).wrapping_add((seed as u32).wrapping_mul(196314165)) as i32
}

fn positive(x: i32) -> i32 {
    if x > 1 { x } else { 1 }
}

fn edge(k: u32, by: u32) -> i32 {
    positive((1i32 << k).wrapping_add(by as i32).wrapping_sub(2))
}

fn spread(word: i32, i: u32) -> i32 {
    positive(word.wrapping_abs() >> (i % 31))
}

fn number(i: u32, word: i32) -> i32 {
    if i < 160 { edge(i / 5, i % 5) } else { spread(word, i) }
}

#[allow(non_snake_case)]
fn scaling(gain: i32, word: i32) {
    // the lines of silk_nsq_del_dec_scale_states, with their pointers read
    let mut inv_gain_Q31 = silk_INVERSE32_varQ(if gain > 1 { gain } else { 1 }, 47);
    let inv_gain_Q26 = |inv_gain_Q31: i32| (inv_gain_Q31 >> 5 - 1) + 1 >> 1;
    println!("{}", inv_gain_Q31);
    println!("{}", inv_gain_Q26(inv_gain_Q31));
    println!("{}", inv_gain_Q26(word));
    let x16 = (word >> 16) as i16;
    println!("{}", (x16 as i64 * inv_gain_Q26(inv_gain_Q31) as i64 >> 16) as i32);
    let LTP_scale_Q14 = word;
    inv_gain_Q31 = (((inv_gain_Q31 as i64 * LTP_scale_Q14 as i16 as i64 >> 16) as i32 as u32) << 2) as i32;
    println!("{}", inv_gain_Q31);
}

fn sample(word: i32, kind: u32) -> i16 {
    match kind {
        0 => (word >> 16) as i16,
        1 => if word < 0 { -32768 } else { 32767 },
        _ => ((word >> 6) >> 16) as i16,
    }
}

fn fill(row: &mut [i16], seed: i32, kind: u32) -> i32 {
    let mut word = seed;
    for x in row {
        word = rand(word);
        *x = sample(word, kind);
    }
    word
}

fn filter_row(seed: i32, i: u32) -> i32 {
    let mut input = [0i16; 64];
    let mut b = [0i16; 16];
    let mut row = [77i16; 80];
    let after = fill(&mut input, seed, i % 3);
    let last = fill(&mut b, after, i / 3 % 3);
    let order = if i % 2 == 0 { 16 } else { 10 };
    unsafe { silk_LPC_analysis_filter(row[9..73].as_mut_ptr(), input.as_ptr(), b.as_ptr(), 64, order, 0) };
    for x in row {
        println!("{}", x);
    }
    last
}

fn main() {
    let mut seed = 1;
    for i in 0..2048u32 {
        seed = rand(seed);
        let b32 = number(i, seed);
        println!("{}", silk_INVERSE32_varQ(b32, 47));
        println!("{}", silk_INVERSE32_varQ(b32, (i % 63) as i32));
    }
    for i in 0..1024u32 {
        println!("{}", silk_DIV32_varQ(edge(i / 32, i % 5), edge(i % 32, i / 7 % 5), 16));
    }
    let mut seed = 2;
    for i in 0..1024u32 {
        let first = rand(seed);
        seed = rand(first);
        let (a32, b32) = (spread(first, i / 31), spread(seed, i));
        println!("{}", silk_DIV32_varQ(a32, b32, 16));
        println!("{}", silk_DIV32_varQ(a32, b32, (i % 31) as i32));
    }
    let mut seed = 3;
    for i in 0..320u32 {
        let first = rand(seed);
        seed = rand(first);
        let (prev, gain) = (spread(first, i / 31), number(i, seed));
        scaling(gain, first);
        scaling(first, seed);
        println!("{}", silk_DIV32_varQ(prev, gain, 16));
    }
    let mut seed = 4;
    for i in 0..36u32 {
        seed = filter_row(seed, i);
    }
}
