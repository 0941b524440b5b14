//! Safe calls of the library for Rust: slices for pointers with lengths, and a `Result` for a code.

mod calls;

use calls::{Answer, ReadAnswer};
use std::fmt;

/// A hall is exactly so many numbers.
pub const HALL: usize = 3780;
/// What a reading needs at least: bytes, prices and numbers.
pub const LIST: usize = 10240;
pub const PRICES: usize = 8192;
pub const NUMBERS: usize = 8192;

/// Why a call was refused, by the numbers of docs/REFUSALS.md.
#[derive(Clone, Copy, Debug, PartialEq, Eq)]
pub struct Refused {
    pub number: u64,
    pub place: u64,
    pub layer: u64,
}

impl fmt::Display for Refused {
    fn fmt(&self, f: &mut fmt::Formatter) -> fmt::Result {
        write!(f, "refused {} at {} by layer {}", self.number, self.place, self.layer)
    }
}

/// A form's length and its price.
#[derive(Clone, Copy, Debug, PartialEq, Eq)]
pub struct Reading {
    pub length: usize,
    pub price: u64,
}

impl From<Answer> for Result<u64, Refused> {
    fn from(answer: Answer) -> Self {
        refused(answer.code, answer.place, answer.layer).map_or(Ok(answer.value), Err)
    }
}

impl From<ReadAnswer> for Result<Reading, Refused> {
    fn from(answer: ReadAnswer) -> Self {
        let reading = Reading { length: answer.length as usize, price: answer.price };
        refused(answer.code, answer.place, answer.layer).map_or(Ok(reading), Err)
    }
}

fn refused(number: u64, place: u64, layer: u64) -> Option<Refused> {
    (number != 0).then_some(Refused { number, place, layer })
}

/// A sheet by its text, which each call loads.
#[derive(Clone, Copy)]
pub struct Sheet<'a>(pub &'a [u8]);

impl Sheet<'_> {
    /// How many words the sheet has, or why the text is none.
    pub fn load(self) -> Result<u64, Refused> {
        calls::load(self.0).into()
    }

    pub fn open(self, hall: &mut [u64]) -> Result<u64, Refused> {
        calls::open(self.0, hall).into()
    }

    pub fn clear(self, hall: &mut [u64], seat: usize) -> Result<u64, Refused> {
        calls::clear(self.0, hall, seat).into()
    }

    pub fn say(self, hall: &mut [u64], seat: usize, word: u8) -> Result<u64, Refused> {
        calls::say(self.0, hall, seat, word).into()
    }

    pub fn back(self, hall: &mut [u64], seat: usize) -> Result<u64, Refused> {
        calls::back(self.0, hall, seat).into()
    }

    pub fn hear(self, hall: &mut [u64], seat: usize, message: &[u8]) -> Result<u64, Refused> {
        calls::hear(self.0, hall, seat, message).into()
    }

    pub fn offer(self, hall: &[u64], seat: usize) -> Result<u64, Refused> {
        calls::offer(self.0, hall, seat).into()
    }

    pub fn held(self, hall: &[u64], seat: usize) -> Result<u64, Refused> {
        calls::held(self.0, hall, seat).into()
    }

    pub fn read_points(
        self,
        hall: &[u64],
        seat: usize,
        list: &mut [u8],
        prices: &mut [u32],
        numbers: &mut [u32],
    ) -> Result<Reading, Refused> {
        calls::read_points(self.0, hall, seat, list, prices, numbers).into()
    }

    pub fn read_worst(
        self,
        hall: &[u64],
        seat: usize,
        list: &mut [u8],
        prices: &mut [u16],
        numbers: &mut [u32],
    ) -> Result<Reading, Refused> {
        calls::read_worst(self.0, hall, seat, list, prices, numbers).into()
    }
}
