// The library for servers written in C: each call is given the sheet's text, and loads it.
use crate::calls;
use crate::twin::HALL;

pub struct Library<'a> {
    text: &'a str,
    hall: Vec<u64>,
    list: Vec<u8>,
    prices: Vec<u32>,
    numbers: Vec<u32>,
}

impl<'a> Library<'a> {
    pub fn of(text: &'a str) -> Self {
        Library { text, hall: vec![0; HALL], list: vec![0; 10240], prices: vec![0; 8192], numbers: vec![0; 8192] }
    }

    // Hears the message and reads it on points, by one call each; the price.
    pub fn points(&mut self, message: &str, rounds: u32) -> u64 {
        (0..rounds).fold(0, |_, _| self.answer(message))
    }

    fn answer(&mut self, message: &str) -> u64 {
        let Library { text, hall, list, prices, numbers } = self;
        let heard = calls::hear(text.as_bytes(), hall, 0, message.as_bytes());
        let read = calls::read_points(text.as_bytes(), hall, 0, list, prices, numbers);
        if heard.code == 0 && read.code == 0 { read.price } else { u64::MAX }
    }
}
