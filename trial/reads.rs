//! Readings of a seat on both scales, compared with the recognizer.
use crate::library::{ReadAnswer, read_points, read_worst};
use trial::generator::random::Random;
use trial::recognizer::forms::price_of_form;
use trial::recognizer::prices::{Prices, Scale};
use trial::recognizer::sheets::Sheet;
use trial::recognizer::{Refusal, refusal};

/// The scales that the library reads on.
#[derive(Clone, Copy, Debug)]
pub enum Measure {
    Points,
    Worst,
}

impl Measure {
    pub const ALL: [Measure; 2] = [Measure::Points, Measure::Worst];

    fn scale(self) -> Scale {
        match self {
            Measure::Points => Scale::Points,
            Measure::Worst => Scale::Worst,
        }
    }
}

/// The memory that a reading is lent, with prices of the scale's width.
#[derive(Clone, PartialEq, Eq)]
struct Buffers<P> {
    list: Vec<u8>,
    prices: Vec<P>,
    numbers: Vec<u32>,
}

/// Lengths of the lent memory: mostly just enough, now and then too short or longer.
pub struct Lengths {
    list: usize,
    prices: usize,
    numbers: usize,
}

impl Lengths {
    pub fn any(random: &mut Random) -> Lengths {
        let mut near = |enough: usize| match random.below(24) {
            0 => enough - 1,
            1 => random.below(enough),
            2 => enough + random.below(3),
            _ => enough,
        };
        Lengths {
            list: near(10240),
            prices: near(8192),
            numbers: near(8192),
        }
    }

    pub fn suffice(&self) -> bool {
        self.list >= 10240 && self.prices >= 8192 && self.numbers >= 8192
    }

    fn buffers<P: Clone>(&self, random: &mut Random, price: P) -> Buffers<P> {
        let number = random.bits();
        Buffers {
            list: vec![number as u8; self.list],
            prices: vec![price; self.prices],
            numbers: vec![(number >> 8) as u32; self.numbers],
        }
    }
}

/// Reads on one scale, and answers the reading with the list before and after.
pub struct Outcome {
    pub reading: ReadAnswer,
    pub before: Vec<u8>,
    pub after: Vec<u8>,
    pub is_untouched: bool,
}

fn outcome<P: PartialEq>(before: Buffers<P>, after: Buffers<P>, reading: ReadAnswer) -> Outcome {
    let is_untouched = before == after;
    Outcome {
        reading,
        before: before.list,
        after: after.list,
        is_untouched,
    }
}

pub fn read(random: &mut Random, view: View, lengths: &Lengths, measure: Measure) -> Outcome {
    let View {
        text, hall, seat, ..
    } = view;
    match measure {
        Measure::Points => {
            let price = random.bits() as u32;
            let before = lengths.buffers(random, price);
            let mut after = before.clone();
            let Buffers {
                list,
                prices,
                numbers,
            } = &mut after;
            let reading = read_points(text, hall, seat, list, prices, numbers);
            outcome(before, after, reading)
        }
        Measure::Worst => {
            let price = random.bits() as u16;
            let before = lengths.buffers(random, price);
            let mut after = before.clone();
            let Buffers {
                list,
                prices,
                numbers,
            } = &mut after;
            let reading = read_worst(text, hall, seat, list, prices, numbers);
            outcome(before, after, reading)
        }
    }
}

fn refused(fault: Refusal) -> ReadAnswer {
    ReadAnswer {
        code: u64::from(fault.number),
        place: fault.place as u64,
        layer: u64::from(fault.layer),
        length: 0,
        price: 0,
    }
}

fn expect_refused(outcome: &Outcome, fault: Refusal) -> Result<(), String> {
    if outcome.reading == refused(fault) && outcome.is_untouched {
        return Ok(());
    }
    Err(format!(
        "read {:?}, expected {fault:?}; memory untouched: {}",
        outcome.reading, outcome.is_untouched
    ))
}

// The form is one of a derivation, its price is the stated one and the cheapest, and the rest of the list remains.
fn expect_reading(
    outcome: &Outcome,
    sheet: &Sheet,
    words: &[usize],
    measure: Measure,
    cheapest: u64,
) -> Result<(), String> {
    let length = outcome.reading.length as usize;
    let Some(form) = outcome.after.get(..length) else {
        return Err(format!("a form of {length} numbers"));
    };
    let numbers: Vec<u32> = form.iter().map(|number| u32::from(*number)).collect();
    let answer = ReadAnswer {
        code: 0,
        place: 0,
        layer: 0,
        length: length as u64,
        price: cheapest,
    };
    let price = price_of_form(sheet, words, measure.scale(), &numbers);
    if outcome.reading == answer
        && price == Some(cheapest)
        && outcome.after[length..] == outcome.before[length..]
    {
        return Ok(());
    }
    Err(format!(
        "{measure:?}: {:?}, form {numbers:?} at {price:?}, cheapest {cheapest}",
        outcome.reading
    ))
}

/// A seat of a hall that is used with a sheet, given by its text.
#[derive(Clone, Copy)]
pub struct View<'a> {
    pub sheet: &'a Sheet,
    pub text: &'a [u8],
    pub hall: &'a [u64],
    pub seat: usize,
}

/// Reads the words that stand at a seat, and compares all that is fixed.
pub fn check(
    random: &mut Random,
    view: View,
    words: &[usize],
    measure: Measure,
) -> Result<(), String> {
    let lengths = Lengths::any(random);
    let outcome = read(random, view, &lengths, measure);
    if view.hall.len() != 3780 || view.seat > 3 {
        return expect_refused(&outcome, refusal(11, 0, 3));
    }
    if !lengths.suffice() {
        return expect_refused(&outcome, refusal(17, 0, 3));
    }
    match Prices::of(view.sheet, words, measure.scale()).cheapest() {
        Some(cheapest) => expect_reading(&outcome, view.sheet, words, measure, cheapest),
        None => expect_refused(&outcome, refusal(16, 0, 3)),
    }
}
