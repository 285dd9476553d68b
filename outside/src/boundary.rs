//! The two C functions of the static library `boundary`. All unsafe code is here.

use crate::bench_work::Job;
use crate::replay::Setup;

unsafe extern "C" {
    fn cards_replay(
        sum: u32,
        cards: u32,
        blocks: u32,
        tag: u32,
        made: u32,
        begun: u32,
        image: *const u8,
        image_len: usize,
        calls: *const u8,
        calls_len: usize,
        answers: *mut u8,
        answers_len: usize,
    ) -> usize;

    fn cards_bench(
        sum: u32,
        cards: u32,
        blocks: u32,
        tag: u32,
        what: u32,
        count: u32,
        image: *const u8,
        image_len: usize,
    ) -> u64;
}

/// Plays a script on the other side and gives its answers, at most `limit` bytes.
pub fn replay(setup: &Setup, calls: &[u8], limit: usize) -> Vec<u8> {
    let mut answers = vec![0; limit];
    // SAFETY: each pointer and length are those of a slice that lives through the call, and only `answers`, which is
    // borrowed for writing, is written to.
    let written = unsafe {
        cards_replay(
            setup.sum,
            setup.cards,
            setup.blocks,
            setup.tag,
            setup.made,
            setup.begun,
            setup.image.as_ptr(),
            setup.image.len(),
            calls.as_ptr(),
            calls.len(),
            answers.as_mut_ptr(),
            answers.len(),
        )
    };
    assert!(written <= limit, "the other side says that it wrote {written} bytes into {limit}");
    answers.truncate(written);
    answers
}

/// Does the work of a benchmark on the other side.
pub fn bench(job: &Job) -> u64 {
    // SAFETY: the pointer and the length are those of a slice that lives through the call and is only read.
    unsafe {
        cards_bench(job.sum, job.cards, job.blocks, job.tag, job.what, job.count, job.image.as_ptr(), job.image.len())
    }
}
