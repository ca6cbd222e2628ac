//! The functions of include/pmn.h, as Rust declares them.
extern "C" {
    pub fn pmn_check(file: *const u8, file_length: usize) -> u8;
    pub fn pmn_frame(file: *const u8, file_length: usize, frame: u64, answer: *mut u64, answer_length: usize) -> u8;
    pub fn pmn_frames(
        file: *const u8,
        file_length: usize,
        frames: *const u64,
        frames_length: usize,
        answers: *mut u64,
        answers_length: usize,
    ) -> u8;
    pub fn pmn_score(
        file: *const u8,
        file_length: usize,
        frames: *const u64,
        frames_length: usize,
        answer: *mut u64,
        answer_length: usize,
    ) -> u8;
    pub fn pmn_pair(file: *const u8, file_length: usize, u: u64, v: u64, answer: *mut u64, answer_length: usize) -> u8;
    pub fn pmn_witness(
        file: *const u8,
        file_length: usize,
        u: u64,
        v: u64,
        k: u64,
        l: u64,
        answer: *mut u64,
        answer_length: usize,
    ) -> u8;
    pub fn pmn_distinct(file: *const u8, file_length: usize, u: u64, v: u64, answer: *mut u64, answer_length: usize) -> u8;
    pub fn pmn_report(file: *const u8, file_length: usize, answer: *mut u64, answer_length: usize) -> u8;
    pub fn pmn_preview(file: *const u8, file_length: usize, signal: u64, answer: *mut u64, answer_length: usize) -> u8;
    pub fn pmn_run(
        file: *const u8,
        file_length: usize,
        calls: *const u64,
        calls_length: usize,
        answers: *mut u64,
        answers_length: usize,
        out: *mut u8,
        out_length: usize,
    ) -> u8;
    pub fn pmn_line(
        first: *const u8,
        first_length: usize,
        second: *const u8,
        second_length: usize,
        n: u64,
        out: *mut u8,
        out_length: usize,
        answer: *mut u64,
        answer_length: usize,
    ) -> u8;
    pub fn pmn_compare(
        first: *const u8,
        first_length: usize,
        second: *const u8,
        second_length: usize,
        budget: u64,
        answer: *mut u64,
        answer_length: usize,
    ) -> u8;
    pub fn pmn_write(file: *const u8, file_length: usize, out: *mut u8, out_length: usize, answer: *mut u64, answer_length: usize) -> u8;
    pub fn pmn_convert(
        file: *const u8,
        file_length: usize,
        out: *mut u8,
        out_length: usize,
        answer: *mut u64,
        answer_length: usize,
    ) -> u8;
    pub fn pmn_cut(
        file: *const u8,
        file_length: usize,
        output: u64,
        out: *mut u8,
        out_length: usize,
        answer: *mut u64,
        answer_length: usize,
    ) -> u8;
    pub fn pmn_part(
        file: *const u8,
        file_length: usize,
        signal: u64,
        out: *mut u8,
        out_length: usize,
        answer: *mut u64,
        answer_length: usize,
    ) -> u8;
    pub fn pmn_three_feeds(table: u64, answer: *mut i64, answer_length: usize) -> u8;
}
