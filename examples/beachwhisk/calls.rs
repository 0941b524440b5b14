//! The calls of include/beachwhisk.h over slices. This is the only unsafe code: each pointer comes with its slice's length, and
//! a slice that is written overlaps no other, which is all that the library asks.

/// Code 0 and a value, or a refusal's number, place and layer.
#[repr(C)]
#[derive(Clone, Copy, Debug, PartialEq, Eq)]
pub struct Answer {
    pub code: u64,
    pub place: u64,
    pub layer: u64,
    pub value: u64,
}

/// The same of a reading: the form's length and its price.
#[repr(C)]
#[derive(Clone, Copy, Debug, PartialEq, Eq)]
pub struct ReadAnswer {
    pub code: u64,
    pub place: u64,
    pub layer: u64,
    pub length: u64,
    pub price: u64,
}

#[link(name = "beachwhisk", kind = "static")]
unsafe extern "C" {
    fn beachwhisk_load(text: *const u8, length: usize) -> Answer;
    fn beachwhisk_open(text: *const u8, length: usize, hall: *mut u64, numbers: usize) -> Answer;
    fn beachwhisk_clear(
        text: *const u8,
        length: usize,
        hall: *mut u64,
        numbers: usize,
        seat: usize,
    ) -> Answer;
    fn beachwhisk_say(
        text: *const u8,
        length: usize,
        hall: *mut u64,
        numbers: usize,
        seat: usize,
        word: u8,
    ) -> Answer;
    fn beachwhisk_back(
        text: *const u8,
        length: usize,
        hall: *mut u64,
        numbers: usize,
        seat: usize,
    ) -> Answer;
    fn beachwhisk_hear(
        text: *const u8,
        length: usize,
        hall: *mut u64,
        numbers: usize,
        seat: usize,
        message: *const u8,
        bytes: usize,
    ) -> Answer;
    fn beachwhisk_offer(
        text: *const u8,
        length: usize,
        hall: *const u64,
        numbers: usize,
        seat: usize,
    ) -> Answer;
    fn beachwhisk_held(
        text: *const u8,
        length: usize,
        hall: *const u64,
        numbers: usize,
        seat: usize,
    ) -> Answer;
    fn beachwhisk_read_points(
        text: *const u8,
        length: usize,
        hall: *const u64,
        numbers: usize,
        seat: usize,
        list: *mut u8,
        list_length: usize,
        prices: *mut u32,
        prices_length: usize,
        stack: *mut u32,
        stack_length: usize,
    ) -> ReadAnswer;
    fn beachwhisk_read_worst(
        text: *const u8,
        length: usize,
        hall: *const u64,
        numbers: usize,
        seat: usize,
        list: *mut u8,
        list_length: usize,
        prices: *mut u16,
        prices_length: usize,
        stack: *mut u32,
        stack_length: usize,
    ) -> ReadAnswer;
}

pub fn load(text: &[u8]) -> Answer {
    unsafe { beachwhisk_load(text.as_ptr(), text.len()) }
}

pub fn open(text: &[u8], hall: &mut [u64]) -> Answer {
    unsafe { beachwhisk_open(text.as_ptr(), text.len(), hall.as_mut_ptr(), hall.len()) }
}

pub fn clear(text: &[u8], hall: &mut [u64], seat: usize) -> Answer {
    unsafe {
        beachwhisk_clear(
            text.as_ptr(),
            text.len(),
            hall.as_mut_ptr(),
            hall.len(),
            seat,
        )
    }
}

pub fn say(text: &[u8], hall: &mut [u64], seat: usize, word: u8) -> Answer {
    unsafe {
        beachwhisk_say(
            text.as_ptr(),
            text.len(),
            hall.as_mut_ptr(),
            hall.len(),
            seat,
            word,
        )
    }
}

pub fn back(text: &[u8], hall: &mut [u64], seat: usize) -> Answer {
    unsafe {
        beachwhisk_back(
            text.as_ptr(),
            text.len(),
            hall.as_mut_ptr(),
            hall.len(),
            seat,
        )
    }
}

pub fn hear(text: &[u8], hall: &mut [u64], seat: usize, message: &[u8]) -> Answer {
    let (bytes, length) = (message.as_ptr(), message.len());
    unsafe {
        beachwhisk_hear(
            text.as_ptr(),
            text.len(),
            hall.as_mut_ptr(),
            hall.len(),
            seat,
            bytes,
            length,
        )
    }
}

pub fn offer(text: &[u8], hall: &[u64], seat: usize) -> Answer {
    unsafe { beachwhisk_offer(text.as_ptr(), text.len(), hall.as_ptr(), hall.len(), seat) }
}

pub fn held(text: &[u8], hall: &[u64], seat: usize) -> Answer {
    unsafe { beachwhisk_held(text.as_ptr(), text.len(), hall.as_ptr(), hall.len(), seat) }
}

pub fn read_points(
    text: &[u8],
    hall: &[u64],
    seat: usize,
    list: &mut [u8],
    prices: &mut [u32],
    numbers: &mut [u32],
) -> ReadAnswer {
    unsafe {
        beachwhisk_read_points(
            text.as_ptr(),
            text.len(),
            hall.as_ptr(),
            hall.len(),
            seat,
            list.as_mut_ptr(),
            list.len(),
            prices.as_mut_ptr(),
            prices.len(),
            numbers.as_mut_ptr(),
            numbers.len(),
        )
    }
}

pub fn read_worst(
    text: &[u8],
    hall: &[u64],
    seat: usize,
    list: &mut [u8],
    prices: &mut [u16],
    numbers: &mut [u32],
) -> ReadAnswer {
    unsafe {
        beachwhisk_read_worst(
            text.as_ptr(),
            text.len(),
            hall.as_ptr(),
            hall.len(),
            seat,
            list.as_mut_ptr(),
            list.len(),
            prices.as_mut_ptr(),
            prices.len(),
            numbers.as_mut_ptr(),
            numbers.len(),
        )
    }
}
