// The proved crates: their calls in rounds, so that the sheet is loaded once for all of them.
use crate::subject::Subject;
use crate::twin::HALL;

unsafe extern "C" {
    fn load_rounds(text: *const u8, text_len: usize, rounds: u32) -> u64;
    fn say_rounds(
        text: *const u8,
        text_len: usize,
        words: *const u8,
        words_len: usize,
        hall: *mut u64,
        hall_len: usize,
        rounds: u32,
    ) -> u64;
    fn hear_rounds(
        text: *const u8,
        text_len: usize,
        message: *const u8,
        message_len: usize,
        hall: *mut u64,
        hall_len: usize,
        rounds: u32,
    ) -> u64;
    fn points_rounds(
        text: *const u8,
        text_len: usize,
        message: *const u8,
        message_len: usize,
        hall: *mut u64,
        hall_len: usize,
        list: *mut u8,
        list_len: usize,
        prices: *mut u32,
        prices_len: usize,
        numbers: *mut u32,
        numbers_len: usize,
        rounds: u32,
    ) -> u64;
    fn worst_rounds(
        text: *const u8,
        text_len: usize,
        message: *const u8,
        message_len: usize,
        hall: *mut u64,
        hall_len: usize,
        list: *mut u8,
        list_len: usize,
        prices: *mut u16,
        prices_len: usize,
        numbers: *mut u32,
        numbers_len: usize,
        rounds: u32,
    ) -> u64;
}

pub struct Proved<'a> {
    text: &'a str,
    hall: Vec<u64>,
    list: Vec<u8>,
    points: Vec<u32>,
    worst: Vec<u16>,
    numbers: Vec<u32>,
}

impl<'a> Proved<'a> {
    pub fn of(text: &'a str) -> Self {
        Proved {
            text,
            hall: vec![0; HALL],
            list: vec![0; 10240],
            points: vec![0; 8192],
            worst: vec![0; 8192],
            numbers: vec![0; 8192],
        }
    }
}

// In each call the pointers and lengths are those of live slices that do not overlap.
impl Subject for Proved<'_> {
    fn load(&mut self, rounds: u32) -> u64 {
        unsafe { load_rounds(self.text.as_ptr(), self.text.len(), rounds) }
    }

    fn say(&mut self, words: &[u8], rounds: u32) -> u64 {
        let Proved { text, hall, .. } = self;
        unsafe {
            say_rounds(text.as_ptr(), text.len(), words.as_ptr(), words.len(), hall.as_mut_ptr(), hall.len(), rounds)
        }
    }

    fn hear(&mut self, message: &str, rounds: u32) -> u64 {
        let Proved { text, hall, .. } = self;
        unsafe {
            hear_rounds(
                text.as_ptr(),
                text.len(),
                message.as_ptr(),
                message.len(),
                hall.as_mut_ptr(),
                hall.len(),
                rounds,
            )
        }
    }

    fn points(&mut self, message: &str, rounds: u32) -> u64 {
        let Proved { text, hall, list, points, numbers, .. } = self;
        unsafe {
            points_rounds(
                text.as_ptr(),
                text.len(),
                message.as_ptr(),
                message.len(),
                hall.as_mut_ptr(),
                hall.len(),
                list.as_mut_ptr(),
                list.len(),
                points.as_mut_ptr(),
                points.len(),
                numbers.as_mut_ptr(),
                numbers.len(),
                rounds,
            )
        }
    }

    fn worst(&mut self, message: &str, rounds: u32) -> u64 {
        let Proved { text, hall, list, worst, numbers, .. } = self;
        unsafe {
            worst_rounds(
                text.as_ptr(),
                text.len(),
                message.as_ptr(),
                message.len(),
                hall.as_mut_ptr(),
                hall.len(),
                list.as_mut_ptr(),
                list.len(),
                worst.as_mut_ptr(),
                worst.len(),
                numbers.as_mut_ptr(),
                numbers.len(),
                rounds,
            )
        }
    }

    fn hall(&self) -> &[u64] {
        &self.hall
    }

    fn form(&self) -> &[u8] {
        &self.list
    }
}
