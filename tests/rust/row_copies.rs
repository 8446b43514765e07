// Makes the file `stdout` of the crate `row_copies`: the same numbers, in rows of Rust's own that Rust clones.
//
// To make the file anew:
//     rustc -O tests/rust/row_copies.rs -o row_copies && ./row_copies > crates/row_copies/stdout

// FNV-1a of 32 bits, a word at a time.
fn digest(row: &[i32]) -> u32 {
    row.iter()
        .fold(2166136261, |sum: u32, x| (sum ^ *x as u32).wrapping_mul(16777619))
}

fn lines(width: u32, numbers: &[i32]) {
    for count in [0, 1, 2, 319, 320] {
        let row: Vec<i32> = numbers[..count].to_vec();
        let copy = row.clone();
        println!("{width} {} {:08x}", copy.len(), digest(&copy));
    }
}

fn main() {
    let words: Vec<i32> = (0..320i32).map(|k| k.wrapping_mul(-1640531527)).collect();
    let halves: Vec<i32> = words.iter().map(|x| i32::from(*x as i16)).collect();
    let bytes: Vec<i32> = words.iter().map(|x| i32::from(*x as i8)).collect();
    lines(8, &bytes);
    lines(16, &halves);
    lines(32, &words);
}
