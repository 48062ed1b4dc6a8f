//! The archive's functions, as `include/mensorique.h` declares them: that header says what each argument is.
#![allow(missing_docs)]

extern "C" {
    pub fn mensorique_room_words(depth: usize, size: usize) -> usize;

    pub fn mensorique_read_question(
        text: *const u8,
        text_length: usize,
        arities: *mut u8,
        arities_length: usize,
        words: *mut u16,
        words_length: usize,
        unknowns: &mut usize,
        functors: &mut usize,
        equations: &mut usize,
        used: &mut usize,
        place: &mut usize,
    ) -> u32;

    pub fn mensorique_write_question(
        unknowns: usize,
        arities: *const u8,
        arities_length: usize,
        equations: usize,
        words: *const u16,
        words_length: usize,
        text: *mut u8,
        text_length: usize,
        length: &mut usize,
        place: &mut usize,
    ) -> u32;

    pub fn mensorique_write_answers(
        arities: *const u8,
        arities_length: usize,
        end: u64,
        visited: u64,
        answers: usize,
        words: *const u16,
        words_length: usize,
        text: *mut u8,
        text_length: usize,
        length: &mut usize,
        place: &mut usize,
    ) -> u32;

    pub fn mensorique_equal(
        arities: *const u8,
        arities_length: usize,
        row: *const u16,
        row_length: usize,
        equal: &mut u32,
        place: &mut usize,
    ) -> u32;

    pub fn mensorique_solves(
        unknowns: usize,
        arities: *const u8,
        arities_length: usize,
        equations: usize,
        words: *const u16,
        words_length: usize,
        row: *const u16,
        row_length: usize,
        solves: &mut u32,
        place: &mut usize,
    ) -> u32;

    pub fn mensorique_run(
        unknowns: usize,
        arities: *const u8,
        arities_length: usize,
        equations: usize,
        words: *const u16,
        words_length: usize,
        steps: u64,
        depth: usize,
        size: usize,
        answers: *mut u16,
        answers_length: usize,
        room: *mut u16,
        room_length: usize,
        end: &mut u32,
        visited: &mut u64,
        count: &mut u64,
        used: &mut usize,
        place: &mut usize,
    ) -> u32;
}
