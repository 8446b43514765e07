//! The wrapper: every refusal, wrong lengths of every row, what a call does to state and pulses, and that names, numbers and words are those
//! of include/nsq.h and of the examples in C. tests/wav.rs has what it does with WAV files.
use nsq::wav::{self, WavRefusal};
use nsq::{excitation, places, HeardRefusal, Refusal, Reported, Rows, Settings, State, SAMPLES, WORDS};
use std::error::Error;
use std::ops::Range;

const HEADER: &str = include_str!("../../../include/nsq.h");
const REFUSALS: [Refusal; 7] = [Refusal::Length, Refusal::Order, Refusal::Paths, Refusal::Kind, Refusal::Row, Refusal::Gain, Refusal::Lag];
const HEARD_REFUSALS: [HeardRefusal; 3] = [HeardRefusal::Seed, HeardRefusal::Kind, HeardRefusal::Row];
const WAV_REFUSALS: [WavRefusal; 8] = [
    WavRefusal::TooLong,
    WavRefusal::NotWave,
    WavRefusal::PastEnd,
    WavRefusal::NoFormat,
    WavRefusal::OtherFormat,
    WavRefusal::NoData,
    WavRefusal::OddData,
    WavRefusal::Row,
];

/// the names without NSQ_ and the numbers of one of the header's enums, in their order: of the one that begins with this name
fn header_enum(first: &str) -> Vec<(&'static str, usize)> {
    let begins = format!("NSQ_{first} = ");
    let body = HEADER.split("enum {").skip(1).map(|rest| rest.split("};").next().unwrap());
    let body = body.map(str::trim_start).find(|b| b.starts_with(&begins)).unwrap();
    let entry = |line: &'static str| {
        let (name, rest) = line.trim().strip_prefix("NSQ_")?.split_once(" = ")?;
        let digits = rest.split(|c: char| !c.is_ascii_digit()).next()?;
        Some((name, digits.parse().ok()?))
    };
    body.lines().filter_map(entry).collect()
}

fn settings(l: i32, n: i32) -> Settings {
    Settings {
        subfr_length: l,
        nb_subfr: n,
        predict_lpc_order: if l == 80 { 16 } else { 10 },
        shaping_lpc_order: 16,
        n_states_delayed_decision: 4,
        warping_q16: 0,
        signal_type: 0,
        quant_offset_type: 0,
        nlsf_interp_coef_q2: 4,
        seed: 1,
        lambda_q10: 1024,
        ltp_scale_q14: 0,
    }
}

/// rows of their own, so that each can be spoilt
struct Own {
    shorts: [Vec<i16>; 4],
    longs: [Vec<i32>; 5],
}

impl Own {
    fn new(s: &Settings) -> Own {
        let (l, n) = (s.subfr_length as usize, s.nb_subfr as usize);
        let x = (0..n * l).map(|i| ((i * 7919) % 2001) as i16 - 1000).collect();
        Own {
            shorts: [x, vec![100; 32], vec![0; 5 * n], vec![50; 24 * n]],
            longs: [vec![0; n], vec![-1000; n], vec![0; n], vec![1 << 22; n], vec![0; n]],
        }
    }

    fn rows(&self) -> Rows<'_> {
        let ([x, pred, ltp, ar], [harm, tilt, lf, gains, lags]) = (&self.shorts, &self.longs);
        Rows {
            x,
            pred_coef_q12: pred,
            ltp_coef_q14: ltp,
            ar_q13: ar,
            harm_shape_gain_q14: harm,
            tilt_q14: tilt,
            lf_shp_q14: lf,
            gains_q16: gains,
            pitch_l: lags,
        }
    }
}

/// a call that must be refused so, with a report and without, and touch nothing
fn refused(why: Refusal, state: &State, s: &Settings, own: &Own, pulses: usize) {
    let (mut after, mut row) = (state.clone(), vec![77i8; pulses]);
    assert_eq!(after.code(s, &own.rows(), &mut row), Err(why));
    assert_eq!(after.code_reported(s, &own.rows(), &mut row), Err(why));
    assert_eq!(&after, state);
    assert!(row.iter().all(|&p| p == 77));
}

#[test]
fn fresh_is_zero_but_the_lag_and_the_gain() {
    let s = State::fresh();
    assert!(s.samples().iter().all(|&w| w == 0));
    let mut words = [0; WORDS];
    (words[places::LAG_PREV], words[places::PREV_GAIN_Q16]) = (100, 65536);
    assert_eq!(s.words(), &words);
    assert_eq!(State::default(), s);
}

#[test]
fn places_are_those_of_the_header() {
    let one = |place: usize| place..place + 1;
    let ours: [(&str, Range<usize>); 10] = [
        ("SLTP_SHP_Q14", places::SLTP_SHP_Q14),
        ("SLPC_Q14", places::SLPC_Q14),
        ("SAR2_Q14", places::SAR2_Q14),
        ("SLF_AR_SHP_Q14", one(places::SLF_AR_SHP_Q14)),
        ("SDIFF_SHP_Q14", one(places::SDIFF_SHP_Q14)),
        ("LAG_PREV", one(places::LAG_PREV)),
        ("SLTP_BUF_IDX", one(places::SLTP_BUF_IDX)),
        ("SLTP_SHP_BUF_IDX", one(places::SLTP_SHP_BUF_IDX)),
        ("PREV_GAIN_Q16", one(places::PREV_GAIN_Q16)),
        ("REWHITE_FLAG", one(places::REWHITE_FLAG)),
    ];
    let mut named = vec![("SAMPLES", SAMPLES)];
    named.extend(ours.iter().map(|(name, place)| (*name, place.start)));
    named.push(("WORDS", WORDS));
    assert_eq!(named, header_enum("SAMPLES"));
    // each ends where the next begins
    assert!(ours.windows(2).all(|pair| pair[0].1.end == pair[1].1.start));
    assert_eq!(ours[9].1.end, WORDS);
}

#[test]
fn places_find_what_a_frame_left() {
    let s = Settings { signal_type: 2, ..settings(40, 2) };
    let (mut own, mut state) = (Own::new(&s), State::default());
    own.longs[3] = vec![1 << 22, 1 << 21];
    own.longs[4] = vec![100, 99];
    state.code(&s, &own.rows(), &mut [0; 80]).unwrap();
    assert_eq!((state.words()[places::LAG_PREV], state.words()[places::PREV_GAIN_Q16]), (99, 1 << 21));
    assert!([places::SLTP_SHP_Q14, places::SLPC_Q14, places::SAR2_Q14].into_iter().all(|row| state.words()[row].iter().any(|&w| w != 0)));
}

#[test]
fn numbers_are_those_of_the_header() {
    let names = ["BAD_LENGTH", "BAD_ORDER", "BAD_PATHS", "BAD_KIND", "BAD_ROW", "BAD_GAIN", "BAD_LAG"];
    let ours = names.into_iter().zip(REFUSALS.map(|why| why as usize));
    assert_eq!(header_enum("ACCEPTED"), [("ACCEPTED", 0)].into_iter().chain(ours).collect::<Vec<_>>());
    let ours = ["HEARD_BAD_SEED", "HEARD_BAD_KIND", "HEARD_BAD_ROW"].into_iter().zip(HEARD_REFUSALS.map(|why| why as usize));
    assert_eq!(header_enum("HEARD"), [("HEARD", 0)].into_iter().chain(ours).collect::<Vec<_>>());
    let names = ["TOO_LONG", "NOT_WAVE", "PAST_END", "NO_FORMAT", "OTHER_FORMAT", "NO_DATA", "ODD_DATA", "BAD_ROW"].map(|name| format!("WAV_{name}"));
    let ours = names.iter().map(String::as_str).zip(WAV_REFUSALS.map(|why| why as usize));
    assert_eq!(header_enum("WAV_FOUND"), [("WAV_FOUND", 0)].into_iter().chain(ours).collect::<Vec<_>>());
    assert_eq!(header_enum("WAV_BYTES"), [("WAV_BYTES", wav::BYTES), ("WAV_SAMPLES", wav::SAMPLES)]);
    assert!(HEADER.contains(concat!("\n#define NSQ_VERSION \"", env!("CARGO_PKG_VERSION"), "\"\n")));
}

#[test]
fn refusals_say_their_number_in_words() {
    let words = [
        "the subframe length or the subframe count is not allowed",
        "the prediction order or the shaping order is not allowed",
        "the path count is not allowed",
        "the signal type, offset type, interpolation or seed is not allowed",
        "a row has another length",
        "a gain is below 1",
        "a lag is not allowed",
    ];
    let in_c = include_str!("../../../examples/c/voiced.c");
    for (k, (why, words)) in REFUSALS.into_iter().zip(words).enumerate() {
        assert_eq!(why.to_string(), format!("refused: {}, {words}", k + 1));
        assert!(in_c.contains(&format!("return \"{words}\";")), "examples/c/voiced.c has no words for {why:?}");
    }
    let words = [
        "refused: 1, the seed is not allowed",
        "refused: 2, the signal type or the offset type is not allowed",
        "refused: 3, the two rows differ in length or are too long",
    ];
    assert_eq!(HEARD_REFUSALS.map(|why| why.to_string()), words);
    let words = [
        "the file is too long",
        "the file is not a WAV file",
        "a chunk runs past the end of the file",
        "there is no format, or it is too short",
        "the coding, channel count, width or rate is not allowed",
        "there is no data",
        "the data has an odd length",
        "the part is not twice as long as the row",
    ];
    let in_c = include_str!("../../../examples/c/note.c");
    for (k, (why, words)) in WAV_REFUSALS.into_iter().zip(words).enumerate() {
        assert_eq!(why.to_string(), format!("refused: {}, {words}", k + 1));
        assert!(in_c.contains(&format!("return \"{words}\";")), "examples/c/note.c has no words for {why:?}");
    }
}

#[test]
fn refusals_are_errors() {
    fn code_and_hear(s: &Settings, heard: usize) -> Result<(), Box<dyn Error>> {
        let (own, mut pulses) = (Own::new(&settings(40, 2)), [0; 80]);
        let seed = State::default().code(s, &own.rows(), &mut pulses)?;
        excitation(&pulses, seed, s.signal_type, s.quant_offset_type, &mut vec![0; heard])?;
        Ok(())
    }
    let good = settings(40, 2);
    assert!(code_and_hear(&good, 80).is_ok());
    let why = code_and_hear(&Settings { n_states_delayed_decision: 5, ..good }, 80).unwrap_err();
    assert_eq!(why.downcast_ref(), Some(&Refusal::Paths));
    assert_eq!(code_and_hear(&good, 79).unwrap_err().downcast_ref(), Some(&HeardRefusal::Row));
}

#[test]
fn every_frame_size_is_coded() {
    for (l, n) in [(40, 2), (40, 4), (60, 2), (60, 4), (80, 2), (80, 4)] {
        let s = settings(l, n);
        let frame = s.frame_length().unwrap();
        let (own, mut state, mut pulses) = (Own::new(&s), State::fresh(), vec![77i8; frame]);
        let seed = state.code(&s, &own.rows(), &mut pulses).unwrap();
        assert!((0..4).contains(&seed));
        assert!(pulses.iter().all(|&p| (-32..=31).contains(&p)) && pulses.iter().any(|&p| p != 0));
        assert_ne!(state, State::fresh());
        let again = State::from_rows(*state.samples(), *state.words());
        assert_eq!(again, state);
    }
}

#[test]
fn the_report_is_0_and_all_else_as_without() {
    for (l, n) in [(40, 2), (40, 4), (60, 2), (60, 4), (80, 2), (80, 4)] {
        let (mut plain, mut reported) = (State::fresh(), State::fresh());
        for frame in 0..40 {
            let s = Settings { n_states_delayed_decision: 1 + frame % 4, seed: frame & 3, signal_type: frame % 2, ..settings(l, n) };
            let mut own = Own::new(&s);
            own.shorts[0].rotate_left(frame as usize);
            own.longs[3] = vec![1 << (18 + frame % 8); n as usize]; // fine steps and coarse ones, so few pulses and many
            let len = s.frame_length().unwrap();
            let (mut a, mut b) = (vec![77i8; len], vec![-77i8; len]);
            let seed = plain.code(&s, &own.rows(), &mut a).unwrap();
            assert_eq!(reported.code_reported(&s, &own.rows(), &mut b), Ok(Reported { seed, differing: 0 }));
            assert_eq!((&a, &plain), (&b, &reported));
            assert!(a.iter().any(|&p| p != 0));
        }
    }
}

#[test]
fn silence_stays_silent() {
    let s = Settings { n_states_delayed_decision: 1, shaping_lpc_order: 2, lambda_q10: 0, seed: 0, ..settings(40, 2) };
    let mut own = Own::new(&s);
    own.shorts = [vec![0; 80], vec![0; 32], vec![0; 10], vec![0; 48]];
    own.longs = [vec![0; 2], vec![0; 2], vec![0; 2], vec![65536; 2], vec![0; 2]];
    let (mut state, mut pulses) = (State::fresh(), [9i8; 80]);
    assert_eq!(state.code(&s, &own.rows(), &mut pulses), Ok(0));
    assert_eq!(pulses, [0; 80]);
}

#[test]
fn settings_are_refused() {
    let (good, fresh) = (settings(40, 2), State::fresh());
    let own = Own::new(&good);
    let try_it = |why, s: Settings| refused(why, &fresh, &s, &own, 80);
    try_it(Refusal::Length, Settings { subfr_length: 41, ..good });
    try_it(Refusal::Length, Settings { nb_subfr: 3, predict_lpc_order: 11, ..good });
    try_it(Refusal::Length, Settings { subfr_length: i32::MIN, nb_subfr: i32::MAX, ..good });
    try_it(Refusal::Order, Settings { predict_lpc_order: 16, n_states_delayed_decision: 0, ..good });
    try_it(Refusal::Order, Settings { shaping_lpc_order: 3, ..good });
    try_it(Refusal::Paths, Settings { n_states_delayed_decision: 0, ..good });
    try_it(Refusal::Kind, Settings { signal_type: 3, ..good });
    try_it(Refusal::Kind, Settings { seed: 4, ..good });
}

#[test]
fn every_row_of_another_length_is_refused() {
    let (s, fresh) = (settings(40, 2), State::fresh());
    for k in 0..4 {
        for len in [0, Own::new(&s).shorts[k].len() - 1, Own::new(&s).shorts[k].len() + 1, 1000] {
            let mut own = Own::new(&s);
            own.shorts[k].resize(len, 1);
            refused(Refusal::Row, &fresh, &s, &own, 80);
        }
    }
    for k in 0..5 {
        for len in [0, 1, 3, 4, 100] {
            let mut own = Own::new(&s);
            own.longs[k].resize(len, 1);
            refused(Refusal::Row, &fresh, &s, &own, 80);
        }
    }
    for len in [0, 79, 81, 320] {
        refused(Refusal::Row, &fresh, &s, &Own::new(&s), len);
    }
    // the settings come first
    let mut own = Own::new(&s);
    own.shorts[0].clear();
    refused(Refusal::Paths, &fresh, &Settings { n_states_delayed_decision: 5, ..s }, &own, 0);
}

#[test]
fn gains_and_lags_are_refused() {
    let (s, fresh) = (settings(40, 2), State::fresh());
    let mut own = Own::new(&s);
    own.longs[3][1] = 0;
    refused(Refusal::Gain, &fresh, &s, &own, 80);
    let mut words = *fresh.words();
    words[places::PREV_GAIN_Q16] = 0;
    refused(Refusal::Gain, &State::from_rows([0; SAMPLES], words), &s, &Own::new(&s), 80);
    let voiced = Settings { signal_type: 2, ..s };
    for (lag, good) in [(15, false), (16, true), (144, true), (145, false)] {
        let mut own = Own::new(&s);
        own.longs[4] = vec![lag; 2];
        if good {
            assert!(State::fresh().code(&voiced, &own.rows(), &mut [0; 80]).is_ok());
        } else {
            refused(Refusal::Lag, &fresh, &voiced, &own, 80);
        }
    }
    assert_eq!((SAMPLES, WORDS), (640, 767));
}

#[test]
fn excitation_by_hand() {
    // generator 907633515 first, whose bit 31 is clear; 256 - 20 + 25 negated; -256 + 20 + 25 kept; 512 - 20 + 25 and -512 + 20 + 25 negated
    let mut row = [0i32; 5];
    assert_eq!(excitation(&[0, 1, -1, 2, -2], 0, 0, 0, &mut row), Ok(()));
    assert_eq!(row, [25, -261, -211, -517, 467]);
    assert_eq!(excitation(&[], 3, 2, 1, &mut []), Ok(()));
}

#[test]
fn excitation_is_refused() {
    let mut row = vec![77i32; 321];
    let mut try_it = |why, pulses: usize, len: usize, seed, signal_type, offset_type| {
        assert_eq!(excitation(&vec![1; pulses], seed, signal_type, offset_type, &mut row[..len]), Err(why));
        assert!(row.iter().all(|&e| e == 77));
    };
    for seed in [-1, 4, 256, i32::MIN, i32::MAX] {
        try_it(HeardRefusal::Seed, 3, 4, seed, 3, 2);
    }
    for (signal_type, offset_type) in [(-1, 0), (3, 0), (65538, 0), (0, -1), (0, 2), (2, 256)] {
        try_it(HeardRefusal::Kind, 3, 4, 3, signal_type, offset_type);
    }
    for (pulses, len) in [(0, 1), (1, 0), (80, 79), (320, 321), (321, 321), (321, 320)] {
        try_it(HeardRefusal::Row, pulses, len, 0, 2, 1);
    }
}

#[test]
fn a_coded_frame_is_heard() {
    // each value is its pulse's level but for the sign
    let s = settings(80, 4);
    let (own, mut state, mut pulses, mut row) = (Own::new(&s), State::fresh(), [0i8; 320], [0i32; 320]);
    let seed = state.code(&s, &own.rows(), &mut pulses).unwrap();
    assert_eq!(excitation(&pulses, seed, s.signal_type, s.quant_offset_type, &mut row), Ok(()));
    for (p, e) in pulses.iter().zip(row) {
        let size = 256 * i32::from(*p) - 20 * i32::from(p.signum()) + 25;
        assert_eq!(e.abs(), size.abs());
    }
}
