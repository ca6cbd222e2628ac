//! The functions of include/pmn.h on slices: each answers 0 or the number of a refusal, and writes what the header says.
use crate::raw;

pub fn check(file: &[u8]) -> u8 {
    unsafe { raw::pmn_check(file.as_ptr(), file.len()) }
}

pub fn frame(file: &[u8], frame: u64, answer: &mut [u64]) -> u8 {
    unsafe { raw::pmn_frame(file.as_ptr(), file.len(), frame, answer.as_mut_ptr(), answer.len()) }
}

pub fn frames(file: &[u8], frames: &[u64], answers: &mut [u64]) -> u8 {
    unsafe { raw::pmn_frames(file.as_ptr(), file.len(), frames.as_ptr(), frames.len(), answers.as_mut_ptr(), answers.len()) }
}

pub fn score(file: &[u8], frames: &[u64], answer: &mut [u64]) -> u8 {
    unsafe { raw::pmn_score(file.as_ptr(), file.len(), frames.as_ptr(), frames.len(), answer.as_mut_ptr(), answer.len()) }
}

pub fn pair(file: &[u8], u: u64, v: u64, answer: &mut [u64]) -> u8 {
    unsafe { raw::pmn_pair(file.as_ptr(), file.len(), u, v, answer.as_mut_ptr(), answer.len()) }
}

pub fn witness(file: &[u8], u: u64, v: u64, k: u64, l: u64, answer: &mut [u64]) -> u8 {
    unsafe { raw::pmn_witness(file.as_ptr(), file.len(), u, v, k, l, answer.as_mut_ptr(), answer.len()) }
}

pub fn distinct(file: &[u8], u: u64, v: u64, answer: &mut [u64]) -> u8 {
    unsafe { raw::pmn_distinct(file.as_ptr(), file.len(), u, v, answer.as_mut_ptr(), answer.len()) }
}

pub fn report(file: &[u8], answer: &mut [u64]) -> u8 {
    unsafe { raw::pmn_report(file.as_ptr(), file.len(), answer.as_mut_ptr(), answer.len()) }
}

pub fn preview(file: &[u8], signal: u64, answer: &mut [u64]) -> u8 {
    unsafe { raw::pmn_preview(file.as_ptr(), file.len(), signal, answer.as_mut_ptr(), answer.len()) }
}

pub fn run(file: &[u8], calls: &[u64], answers: &mut [u64], out: &mut [u8]) -> u8 {
    unsafe {
        raw::pmn_run(
            file.as_ptr(),
            file.len(),
            calls.as_ptr(),
            calls.len(),
            answers.as_mut_ptr(),
            answers.len(),
            out.as_mut_ptr(),
            out.len(),
        )
    }
}

pub fn line(first: &[u8], second: &[u8], n: u64, out: &mut [u8], answer: &mut [u64]) -> u8 {
    unsafe {
        raw::pmn_line(
            first.as_ptr(),
            first.len(),
            second.as_ptr(),
            second.len(),
            n,
            out.as_mut_ptr(),
            out.len(),
            answer.as_mut_ptr(),
            answer.len(),
        )
    }
}

pub fn compare(first: &[u8], second: &[u8], budget: u64, answer: &mut [u64]) -> u8 {
    unsafe { raw::pmn_compare(first.as_ptr(), first.len(), second.as_ptr(), second.len(), budget, answer.as_mut_ptr(), answer.len()) }
}

pub fn write(file: &[u8], out: &mut [u8], answer: &mut [u64]) -> u8 {
    unsafe { raw::pmn_write(file.as_ptr(), file.len(), out.as_mut_ptr(), out.len(), answer.as_mut_ptr(), answer.len()) }
}

pub fn convert(file: &[u8], out: &mut [u8], answer: &mut [u64]) -> u8 {
    unsafe { raw::pmn_convert(file.as_ptr(), file.len(), out.as_mut_ptr(), out.len(), answer.as_mut_ptr(), answer.len()) }
}

pub fn cut(file: &[u8], output: u64, out: &mut [u8], answer: &mut [u64]) -> u8 {
    unsafe { raw::pmn_cut(file.as_ptr(), file.len(), output, out.as_mut_ptr(), out.len(), answer.as_mut_ptr(), answer.len()) }
}

pub fn part(file: &[u8], signal: u64, out: &mut [u8], answer: &mut [u64]) -> u8 {
    unsafe { raw::pmn_part(file.as_ptr(), file.len(), signal, out.as_mut_ptr(), out.len(), answer.as_mut_ptr(), answer.len()) }
}

pub fn three_feeds(table: u64, answer: &mut [i64]) -> u8 {
    unsafe { raw::pmn_three_feeds(table, answer.as_mut_ptr(), answer.len()) }
}
