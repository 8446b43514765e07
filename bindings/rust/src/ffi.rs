//! The functions of the library. Each row is lent as its pointer and its length, from a slice that holds it, and rows and numbers that are
//! written are lent by `&mut`, so they overlap nothing: that is all that include/nsq.h asks of a caller, but for the stack.
use crate::Rows;

// a pointer and its length side by side
#[rustfmt::skip]
extern "C" {
    fn nsq_fresh(samples: *mut i16, samples_len: usize, words: *mut i32, words_len: usize) -> u32;
    fn nsq_del_dec(
        settings: *mut i32, settings_len: usize, samples: *mut i16, samples_len: usize, words: *mut i32, words_len: usize,
        x: *const i16, x_len: usize, pulses: *mut i8, pulses_len: usize, pred: *const i16, pred_len: usize,
        ltp: *const i16, ltp_len: usize, ar: *const i16, ar_len: usize, harm: *const i32, harm_len: usize,
        tilt: *const i32, tilt_len: usize, lf: *const i32, lf_len: usize, gains: *const i32, gains_len: usize,
        lags: *const i32, lags_len: usize,
    ) -> u32;
    fn nsq_del_dec_report(
        settings: *mut i32, settings_len: usize, samples: *mut i16, samples_len: usize, words: *mut i32, words_len: usize,
        x: *const i16, x_len: usize, pulses: *mut i8, pulses_len: usize, pred: *const i16, pred_len: usize,
        ltp: *const i16, ltp_len: usize, ar: *const i16, ar_len: usize, harm: *const i32, harm_len: usize,
        tilt: *const i32, tilt_len: usize, lf: *const i32, lf_len: usize, gains: *const i32, gains_len: usize,
        lags: *const i32, lags_len: usize, report: *mut i32, report_len: usize,
    ) -> u32;
    fn nsq_excitation(
        pulses: *const i8, pulses_len: usize, seed: i32, signal_type: i32, offset_type: i32, excitation: *mut i32, excitation_len: usize,
    ) -> u32;
    fn nsq_wav_find(file: *const u8, file_len: usize, start: *mut u32, length: *mut u32, rate: *mut u32) -> u32;
    fn nsq_wav_samples(part: *const u8, part_len: usize, row: *mut i16, row_len: usize) -> u32;
}

/// Calls an entry with the thirteen rows that both are lent, and with what comes after them.
#[rustfmt::skip]
macro_rules! lend {
    ($entry:ident($settings:ident, $samples:ident, $words:ident, $r:ident, $pulses:ident $(, $more:expr)*)) => {
        $entry(
            $settings.as_mut_ptr(), $settings.len(), $samples.as_mut_ptr(), $samples.len(), $words.as_mut_ptr(), $words.len(),
            $r.x.as_ptr(), $r.x.len(), $pulses.as_mut_ptr(), $pulses.len(), $r.pred_coef_q12.as_ptr(), $r.pred_coef_q12.len(),
            $r.ltp_coef_q14.as_ptr(), $r.ltp_coef_q14.len(), $r.ar_q13.as_ptr(), $r.ar_q13.len(),
            $r.harm_shape_gain_q14.as_ptr(), $r.harm_shape_gain_q14.len(), $r.tilt_q14.as_ptr(), $r.tilt_q14.len(),
            $r.lf_shp_q14.as_ptr(), $r.lf_shp_q14.len(), $r.gains_q16.as_ptr(), $r.gains_q16.len(),
            $r.pitch_l.as_ptr(), $r.pitch_l.len() $(, $more)*
        )
    };
}

pub fn fresh(samples: &mut [i16], words: &mut [i32]) -> u32 {
    unsafe { nsq_fresh(samples.as_mut_ptr(), samples.len(), words.as_mut_ptr(), words.len()) }
}

pub fn del_dec(settings: &mut [i32], samples: &mut [i16], words: &mut [i32], r: &Rows, pulses: &mut [i8]) -> u32 {
    unsafe { lend!(nsq_del_dec(settings, samples, words, r, pulses)) }
}

pub fn del_dec_report(settings: &mut [i32], samples: &mut [i16], words: &mut [i32], r: &Rows, pulses: &mut [i8], report: &mut [i32]) -> u32 {
    unsafe { lend!(nsq_del_dec_report(settings, samples, words, r, pulses, report.as_mut_ptr(), report.len())) }
}

pub fn excitation(pulses: &[i8], seed: i32, signal_type: i32, offset_type: i32, row: &mut [i32]) -> u32 {
    unsafe { nsq_excitation(pulses.as_ptr(), pulses.len(), seed, signal_type, offset_type, row.as_mut_ptr(), row.len()) }
}

pub fn wav_find(file: &[u8], start: &mut u32, length: &mut u32, rate: &mut u32) -> u32 {
    unsafe { nsq_wav_find(file.as_ptr(), file.len(), start, length, rate) }
}

pub fn wav_samples(part: &[u8], row: &mut [i16]) -> u32 {
    unsafe { nsq_wav_samples(part.as_ptr(), part.len(), row.as_mut_ptr(), row.len()) }
}

/// What the wrapper never does: it lends a report of one word, and 12 settings. And what it never shows: the three numbers of a refused file.
#[cfg(test)]
mod tests {
    use super::*;
    use crate::{places, wav};

    /// every row of a call that can be written
    #[derive(Clone, Debug, PartialEq)]
    struct Written {
        settings: Vec<i32>,
        samples: Vec<i16>,
        words: Vec<i32>,
        pulses: Vec<i8>,
        report: Vec<i32>,
    }

    impl Written {
        /// a good call but for the report's length, on a state that is not fresh
        fn new(report: usize) -> Written {
            let mut words = vec![5; 767];
            (words[places::LAG_PREV], words[places::PREV_GAIN_Q16]) = (0, 65536);
            let settings = vec![40, 2, 10, 2, 2, 0, 0, 0, 4, 3, 1000, 0];
            Written { settings, samples: vec![5; 640], words, pulses: vec![77; 80], report: vec![77; report] }
        }

        fn call(&mut self) -> u32 {
            let rows = Rows {
                x: &[900; 80],
                pred_coef_q12: &[100; 32],
                ltp_coef_q14: &[0; 10],
                ar_q13: &[50; 48],
                harm_shape_gain_q14: &[0; 2],
                tilt_q14: &[-1000; 2],
                lf_shp_q14: &[0; 2],
                gains_q16: &[1 << 22; 2],
                pitch_l: &[0; 2],
            };
            del_dec_report(&mut self.settings, &mut self.samples, &mut self.words, &rows, &mut self.pulses, &mut self.report)
        }

        fn refused(mut self, number: u32) {
            let before = self.clone();
            assert_eq!(self.call(), number);
            assert_eq!(self, before);
        }
    }

    #[test]
    fn three_zeros_are_written_for_a_file_that_is_refused() {
        let long = vec![0; wav::BYTES + 1];
        for (file, number) in [(&[][..], 2), (&long, 1)] {
            let (mut start, mut length, mut rate) = (77, 78, 79);
            assert_eq!(wav_find(file, &mut start, &mut length, &mut rate), number);
            assert_eq!((start, length, rate), (0, 0, 0));
        }
    }

    #[test]
    fn a_report_of_one_word_is_written() {
        let mut rows = Written::new(1);
        assert_eq!(rows.call(), 0);
        assert_eq!(rows.report, [0]);
        assert!(rows.pulses.iter().all(|&p| p != 77) && rows.pulses.iter().any(|&p| p != 0));
    }

    #[test]
    fn a_report_of_another_length_is_refused() {
        for len in [0, 2, 3, 320] {
            Written::new(len).refused(5);
            // the settings' numbers come first, the lowest of them
            for (place, value, number) in [(0, 41, 1), (1, 3, 1), (2, 16, 2), (3, 3, 2), (4, 0, 3), (4, 5, 3), (6, 3, 4), (9, 4, 4)] {
                let mut rows = Written::new(len);
                rows.settings[place] = value;
                rows.refused(number);
            }
        }
    }

    #[test]
    fn rows_of_settings_and_state_are_refused() {
        for len in [0, 1, 2] {
            for settings in [0, 11, 13] {
                let mut rows = Written::new(len);
                rows.settings[0] = 41; // would be 1 where the settings can be looked at
                rows.settings.resize(settings, 0);
                rows.refused(5);
            }
            for (samples, words) in [(0, 767), (639, 767), (641, 767), (640, 0), (640, 766), (640, 768)] {
                let mut rows = Written::new(len);
                rows.samples.resize(samples, 5);
                rows.words.resize(words, 5);
                rows.clone().refused(5);
                rows.settings[4] = 0;
                rows.refused(3);
            }
        }
    }
}
