//! The root of a crate over the handed-over Rust, whose files tools/oracle puts beside it unchanged. Two things stand in for files that
//! were not handed over: the count of leading zeros, and a struct that the quantiser never reads.
#![allow(warnings)]

pub mod externs;
pub mod silk {
    pub mod Inlines;
    pub mod LPC_analysis_filter;
    pub mod NSQ_del_dec;
    pub mod SigProc_FIX;
    pub mod define;
    pub mod structs;
    pub mod tables_other;

    pub mod macros {
        #[inline]
        pub fn silk_CLZ32(x: i32) -> i32 {
            x.leading_zeros() as i32
        }
    }

    pub mod resampler {
        #[derive(Copy, Clone)]
        #[repr(C)]
        pub struct ResamplerState {
            pub unused: i32,
        }
    }
}
