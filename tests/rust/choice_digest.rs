//! Writes the file `stdout` of the program choice_digest, by the Rust of unopus 0.0.1. Here `unopus_nsq` is a library of its sources
//! src/silk/*.rs with public modules, in which the candidate choice of NSQ_del_dec.rs has been cut out, unchanged, into a function of its
//! own, module `choice`: from `q1_Q10 = ..` to the two costs. Build it with this program for release, without overflow checks, and run
//! `choice_digest > stdout`.
use unopus_nsq::silk::choice::choice;
use unopus_nsq::silk::tables_other::silk_Quantization_Offsets_Q10;
use unopus_nsq::silk::NSQ_del_dec::{NSQ_del_dec_struct, NSQ_sample_struct};

const NAMED: [i32; 64] = [
    i32::MIN, i32::MIN + 1, -65537, -65536, -65535, -49152, -32769, -32768, -32767, -16384, -4096, -2049, -2048, -1025, -1024, -2,
    -1, 0, 1, 2, 255, 256, 511, 512, 513, 1023, 1024, 1025, 1104, 1105, 1536, 2047,
    2048, 2049, 2050, 2051, 3071, 3072, 3073, 4095, 4096, 4097, 4098, 6022, 8191, 16383, 16384, 32766,
    32767, 32768, 32769, 61440, 62464, 63488, 64511, 64512, 65535, 65536, 65537, 98303, 98304, 1 << 30, i32::MAX - 1, i32::MAX,
];

fn lambda_of(k: usize, seed: i32) -> i32 {
    match k {
        0..64 => NAMED[k],
        _ if k % 3 == 0 => seed,
        _ if k % 3 == 1 => seed >> 15,
        _ => (seed >> 19) + 4096,
    }
}

fn mixed(h: u32, x: i32) -> u32 {
    (h ^ (x as u32 ^ 0x8000_0000)).wrapping_mul(16777619)
}

fn main() {
    // the running cost of the path is zero, so that RD_Q10 is the candidate's own cost
    let dd: Box<NSQ_del_dec_struct> = unsafe { Box::new(std::mem::zeroed()) };
    let mut ss: [NSQ_sample_struct; 2] = unsafe { std::mem::zeroed() };
    let mut seed = 0i32;
    for k in 0..208 {
        seed = seed.wrapping_mul(196314165).wrapping_add(907633515);
        let lambda = lambda_of(k, seed);
        let mut h: u32 = 2166136261;
        for r in -31744..=30720 {
            for offset in silk_Quantization_Offsets_Q10.iter().flatten() {
                unsafe { choice(r, *offset as i32, lambda, &*dd, ss.as_mut_ptr()) };
                for s in &ss {
                    h = mixed(mixed(h, s.Q_Q10), s.RD_Q10);
                }
            }
        }
        println!("{:08x} {:08x}", lambda as u32, h);
    }
}
