// The seats of a hall: clear, say, hear and read. A refusal is its number.
use super::message::Words;
use super::reading::{Reading, Scratch, write_reading};
use super::scale::Scale;
use super::sheet::Sheet;

const SEAT: usize = 945;
pub const HALL: usize = 4 * SEAT;

fn numbers(hall: &mut [u64], seat: usize) -> Result<&mut [u64], u8> {
    if hall.len() != HALL || seat >= 4 {
        return Err(11);
    }
    Ok(&mut hall[SEAT * seat..SEAT * (seat + 1)])
}

impl Sheet {
    fn is_whole(&self, seat: &[u64]) -> bool {
        seat[0] <= 20 && seat[1..seat[0] as usize + 1].iter().all(|word| *word < self.words.len() as u64)
    }

    fn vacate(&self, seat: &mut [u64]) {
        seat.fill(0);
        self.fill_column(&mut seat[21..], 0, 0);
    }

    fn add(&self, seat: &mut [u64], word: u8) -> Result<usize, u8> {
        let n = seat[0] as usize;
        if word as usize >= self.words.len() {
            return Err(10);
        }
        if n == 20 {
            return Err(13);
        }
        if self.offer(&seat[21..], n) >> word & 1 == 0 {
            return Err(14);
        }
        seat[n + 1] = word as u64;
        seat[0] = n as u64 + 1;
        self.fill_column(&mut seat[21..], n + 1, word);
        Ok(n + 1)
    }

    pub fn clear(&self, hall: &mut [u64], seat: usize) -> Result<(), u8> {
        self.vacate(numbers(hall, seat)?);
        Ok(())
    }

    pub fn say(&self, hall: &mut [u64], seat: usize, word: u8) -> Result<usize, u8> {
        let own = numbers(hall, seat)?;
        if !self.is_whole(own) {
            return Err(12);
        }
        self.add(own, word)
    }

    pub fn hear(&self, hall: &mut [u64], seat: usize, message: &[u8]) -> Result<usize, u8> {
        if message.len() > 512 {
            return Err(7);
        }
        let own = numbers(hall, seat)?;
        self.vacate(own);
        for word in Words::of(self, message) {
            self.add(own, word?)?;
        }
        Ok(own[0] as usize)
    }

    pub fn read<S: Scale>(&self, hall: &mut [u64], seat: usize, scratch: &mut Scratch<S>) -> Result<Reading<S>, u8> {
        let own = numbers(hall, seat)?;
        if !self.is_whole(own) {
            return Err(12);
        }
        let n = own[0] as usize;
        if !self.is_command(&own[21..], n) {
            return Err(16);
        }
        let mut words = [0; 20];
        for (word, number) in words.iter_mut().zip(&own[1..n + 1]) {
            *word = *number as u8;
        }
        Ok(write_reading(self, &words[..n], &own[21..], scratch))
    }
}
