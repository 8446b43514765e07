// The tables of crates/fixed_table, made with Rust's own expressions on the same edge values. Each expression is written as
// the crate unopus writes it (or as its macro reads), and built without overflow checks:
//     rustc -O -C overflow-checks=no tests/rust/fixed_table.rs -o fixed_table && ./fixed_table > crates/fixed_table/stdout
const WORDS: [i32; 24] = [
    -2147483648, -2147483647, -1073741824, -305419896, -65537, -65536, -32769, -32768, -1024, -513, -1, 0, 1, 512, 1023, 1024,
    32767, 32768, 65535, 65536, 305419896, 1073741823, 2147483646, 2147483647,
];
const EDGES: [i32; 48] = [
    -8193, -8192, -8191, -2049, -2048, -2047, -513, -512, -511, -257, -256, -255, -129, -128, -127, -17, -16, -15, -9, -8, -7, -2, -1, 0,
    1, 7, 8, 9, 15, 16, 17, 127, 128, 129, 255, 256, 511, 512, 513, 2047, 2048, 2049, 8191, 8192, 8193, 31743, 31744, 31745,
];
const WIDE: [i64; 16] = [
    -9223372036854775808, -9223372036854775807, -4611686018427387904, -4294967297, -4294967296, -2147483649, -2147483648, -1,
    0, 1, 2147483647, 2147483648, 4294967295, 4294967296, 81985529216486895, 9223372036854775807,
];

type Unary = (&'static str, fn(i32) -> i32);
type Binary = (&'static str, fn(i32, i32) -> i32);

const UNARY: [Unary; 14] = [
    ("low16", |a| a as i16 as i32),
    ("high16", |a| (a >> 16) as i16 as i32),
    ("low8", |a| a as i8 as i32),
    ("neg32", |a| a.wrapping_neg()),
    ("rshift_round4", |a| (a >> 4 - 1) + 1 >> 1),
    ("rshift_round5", |a| (a >> 5 - 1) + 1 >> 1),
    ("rshift_round8", |a| (a >> 8 - 1) + 1 >> 1),
    ("rshift_round10", |a| (a >> 10 - 1) + 1 >> 1),
    ("rshift_round12", |a| (a >> 12 - 1) + 1 >> 1),
    ("rshift_round14", |a| (a >> 14 - 1) + 1 >> 1),
    ("sat16", |a| if a > i16::MAX as i32 { i16::MAX as i32 } else if a < i16::MIN as i32 { i16::MIN as i32 } else { a }),
    ("abs32", |a| if a > 0 { a } else { a.wrapping_neg() }),
    ("rand", |a| 907633515_u32.wrapping_add((a as u32).wrapping_mul(196314165)) as i32),
    ("clamp32 to -31744 .. 30720", |a| if a > 30 << 10 { 30 << 10 } else if a < -(31 << 10) { -(31 << 10) } else { a }),
];

const BINARY: [Binary; 13] = [
    ("add32", |a, b| a.wrapping_add(b)),
    ("sub32", |a, b| a.wrapping_sub(b)),
    ("mul32", |a, b| a.wrapping_mul(b)),
    ("mul16", |a, b| a as i16 as i32 * b as i16 as i32),
    ("smulbb", |a, b| a as i16 as i32 * b as i16 as i32),
    ("smulwb", |a, b| (a as i64 * b as i16 as i64 >> 16) as i32),
    ("smulwt", |a, b| (a as i64 * (b as i64 >> 16) >> 16) as i32),
    ("smulww", |a, b| (a as i64 * b as i64 >> 16) as i32),
    ("smmul", |a, b| (a as i64 * b as i64 >> 32) as i32),
    ("or32", |a, b| a | b),
    ("min32", |a, b| a.min(b)),
    ("shl32", |a, b| (a as u32).wrapping_shl(b as u32) as i32),
    ("shr32", |a, b| a.wrapping_shr(b as u32)),
];

const TERNARY: [Binary; 5] = [
    ("smlabb to 2147483647", |a, b| i32::MAX.wrapping_add(a as i16 as i32 * b as i16 as i32)),
    ("smlawb to -2147483648", |a, b| (i32::MIN as i64 + (a as i64 * b as i16 as i64 >> 16)) as i32),
    ("smlawt to 2147483647", |a, b| (i32::MAX as i64 + (a as i64 * (b as i64 >> 16) >> 16)) as i32),
    ("smlaww to -2147483648", |a, b| (i32::MIN as i64 + (a as i64 * b as i64 >> 16)) as i32),
    ("smlawb to -1", |a, b| (-1_i64 + (a as i64 * b as i16 as i64 >> 16)) as i32),
];

fn line<T: std::fmt::Display>(values: impl Iterator<Item = T>) {
    for v in values {
        print!("{v} ");
    }
    println!();
}

fn main() {
    for (name, f) in UNARY {
        println!("{name}");
        line(WORDS.iter().chain(EDGES.iter()).map(|&a| f(a)));
    }
    for (name, f) in BINARY.iter().chain(TERNARY.iter()) {
        println!("{name}");
        for a in WORDS {
            line(WORDS.iter().map(|&b| f(a, b)));
        }
    }
    println!("low32");
    line(WIDE.iter().map(|&a| a as i32));
    println!("bits32");
    line(WORDS.iter().map(|&a| a as u32));
    println!("clz32");
    line(EDGES.iter().map(|&a| a.leading_zeros()));
    println!("mul_u32");
    for a in WORDS {
        line(WORDS.iter().map(|&b| (a as u32).wrapping_mul(b as u32)));
    }
}
