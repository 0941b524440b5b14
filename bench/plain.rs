// The twin, in the same rounds.
use crate::subject::{Subject, packed};
use crate::twin::scale::{Points, Worst};
use crate::twin::{HALL, Scratch, Sheet};
use std::hint::black_box;

pub struct Plain<'a> {
    text: &'a str,
    sheet: Sheet,
    hall: Vec<u64>,
    points: Scratch<Points>,
    worst: Scratch<Worst>,
}

impl<'a> Plain<'a> {
    pub fn of(text: &'a str) -> Self {
        let sheet = Sheet::load(text);
        Plain { text, sheet, hall: vec![0; HALL], points: Scratch::new(), worst: Scratch::new() }
    }

    pub fn sheet(&self) -> &Sheet {
        &self.sheet
    }

    fn say_at(&mut self, standing: u64, word: u8) -> u64 {
        self.hall[0] = standing;
        self.sheet.say(&mut self.hall, 0, word).map_or(u64::MAX, |count| count as u64)
    }
}

impl Subject for Plain<'_> {
    fn load(&mut self, rounds: u32) -> u64 {
        (0..rounds).fold(0, |_, _| black_box(Sheet::load(self.text)).words.len() as u64)
    }

    fn say(&mut self, words: &[u8], rounds: u32) -> u64 {
        for seat in 0..4 {
            self.sheet.clear(&mut self.hall, seat).expect("a hall has four seats");
        }
        let (mut before, mut standing, mut last) = (0, 0, 0);
        for word in words {
            (before, last) = (standing, *word);
            standing = self.say_at(before, last);
        }
        (0..rounds).fold(standing, |_, _| self.say_at(before, last))
    }

    fn hear(&mut self, message: &str, rounds: u32) -> u64 {
        (0..rounds).fold(0, |_, _| {
            self.sheet.hear(&mut self.hall, 0, message.as_bytes()).map_or(u64::MAX, |count| count as u64)
        })
    }

    fn points(&mut self, message: &str, rounds: u32) -> u64 {
        (0..rounds).fold(0, |_, _| {
            let _ = self.sheet.hear(&mut self.hall, 0, message.as_bytes());
            self.sheet
                .read(&mut self.hall, 0, &mut self.points)
                .map_or(u64::MAX, |reading| packed(reading.length, reading.price))
        })
    }

    fn worst(&mut self, message: &str, rounds: u32) -> u64 {
        (0..rounds).fold(0, |_, _| {
            let _ = self.sheet.hear(&mut self.hall, 0, message.as_bytes());
            self.sheet
                .read(&mut self.hall, 0, &mut self.worst)
                .map_or(u64::MAX, |reading| packed(reading.length, reading.price.into()))
        })
    }

    fn hall(&self) -> &[u64] {
        &self.hall
    }

    fn form(&self) -> &[u8] {
        &self.points.form
    }
}
