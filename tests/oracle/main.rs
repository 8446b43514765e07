//! The oracle: runs calls through the handed-over Rust, with the refusals of docs/RULES.md before it.
//!   oracle stream [--digest] [--state] < CALLS     what tools/compare prints of the library
//!   oracle gen COUNT SEED                          a stream of calls: fresh, chained and given states, extremes, refusals
//!   oracle bench FILE REPEAT                       nanoseconds per frame, 1, 2 and 4 paths
mod call;
mod gen;
mod rust;

use call::{parse, Call, Start, State};
use std::io::{Read, Write};

/// FNV-1a over words as little-endian bytes
fn fnv(words: &[i32]) -> u64 {
    let mut h: u64 = 0xcbf29ce484222325;
    for b in words.iter().flat_map(|w| w.to_le_bytes()) {
        h = (h ^ b as u64).wrapping_mul(0x100000001b3);
    }
    h
}

fn line(words: &[i32]) -> String {
    words.iter().map(|w| w.to_string()).collect::<Vec<_>>().join(" ") + "\n"
}

fn stream(calls: &[Call], digest: bool, words: bool, out: &mut dyn Write) {
    let mut state = State::fresh();
    for c in calls {
        match &c.start {
            Start::Fresh => state = State::fresh(),
            Start::Prev => {}
            Start::Given(s) => state = (**s).clone(),
        }
        let mut pulses = vec![0i8; c.pulses_len()];
        let (answer, seed) = rust::run(c, &mut state, &mut pulses);
        let mut t = format!("call {}\nanswer {}\nseed {}\n", c.name, answer, seed);
        if answer == 0 {
            for row in pulses.chunks(20) {
                t += &line(&row.iter().map(|&p| p as i32).collect::<Vec<_>>());
            }
        }
        let all = state.words();
        if digest {
            if answer == 0 {
                t += &format!("count {:016x}\n", fnv(&State::counting(&all, c.settings[0] as usize)));
            }
            t += &format!("full {:016x}\n", fnv(&all));
        }
        if words {
            t += "state\n";
            for (a, e) in [(0, 640), (640, 1280), (1280, 1376), (1376, 1400), (1400, 1408)] {
                t += &line(&all[a..e]);
            }
        }
        out.write_all(t.as_bytes()).unwrap();
    }
}

fn stop(what: &str) -> ! {
    eprintln!("{}", what);
    std::process::exit(2)
}

fn read(text: &str) -> Vec<Call> {
    parse(text).unwrap_or_else(|e| stop(&e))
}

fn main() {
    let args: Vec<String> = std::env::args().skip(1).collect();
    let word = |k: usize| args.get(k).map(|s| s.as_str()).unwrap_or("");
    let number = |k: usize| word(k).parse::<u64>().unwrap_or_else(|_| stop("a number is missing"));
    let mut out = std::io::BufWriter::new(std::io::stdout().lock());
    match word(0) {
        "stream" => {
            let mut text = String::new();
            std::io::stdin().read_to_string(&mut text).unwrap();
            let has = |o: &str| args[1..].iter().any(|a| a == o);
            stream(&read(&text), has("--digest"), has("--state"), &mut out);
        }
        "gen" => gen::calls(number(1), number(2), &mut out),
        "bench" => rust::bench(read(&std::fs::read_to_string(word(1)).unwrap()), number(2) as usize),
        _ => stop("oracle stream [--digest] [--state] | gen COUNT SEED | bench FILE REPEAT"),
    }
}
