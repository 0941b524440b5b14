// The proved crates and the twin must agree before they are measured.
use crate::plain::Plain;
use crate::proved::Proved;
use crate::sheets::Case;
use crate::subject::{Subject, length, price};
use crate::twin::{Rule, Sheet, Symbol};

// The least sum of weights by which each name stands for nothing.
fn prices_of_nothing(sheet: &Sheet) -> Vec<Option<u32>> {
    let mut least: Vec<Option<u32>> = vec![None; sheet.names.len()];
    for _ in 0..sheet.names.len() {
        for rule in &sheet.rules {
            let below = |symbol: &Symbol| if let Symbol::Name(a) = *symbol { least[a] } else { None };
            let sum = rule.symbols.iter().try_fold(u32::from(rule.weight), |sum, symbol| Some(sum + below(symbol)?));
            least[rule.left] = [least[rule.left], sum].into_iter().flatten().min();
        }
    }
    least
}

fn rule_of(sheet: &Sheet, number: u8, name: usize) -> &Rule {
    let rule = &sheet.rules[number as usize - 1];
    assert!(rule.left == name, "rule {number} stands for another name");
    rule
}

// The words and the points of a form, read by the sheet's rules alone.
fn told(sheet: &Sheet, form: &[u8]) -> (Vec<u8>, u32) {
    let nothing = prices_of_nothing(sheet);
    let (mut words, mut points) = (vec![], 0);
    let mut numbers = form.iter();
    let mut symbols = vec![Symbol::Name(sheet.start())];
    while let Some(symbol) = symbols.pop() {
        match symbol {
            Symbol::Word(word) => words.push(word),
            Symbol::Name(name) => match *numbers.next().expect("a number for each name") {
                0 => points += nothing[name].expect("a name that can stand for nothing"),
                number => {
                    let rule = rule_of(sheet, number, name);
                    points += u32::from(rule.weight);
                    symbols.extend(rule.symbols.iter().rev());
                }
            },
        }
    }
    assert!(numbers.next().is_none(), "numbers after the form");
    (words, points)
}

fn standing(hall: &[u64]) -> Vec<u8> {
    hall[1..hall[0] as usize + 1].iter().map(|word| *word as u8).collect()
}

// Both hold the same numbers, and the same price; each form has it, and yields the words standing.
fn agree_on(case: &Case, message: &str) {
    let (mut ours, mut twin) = (Proved::of(&case.sheet), Plain::of(&case.sheet));
    let place = format!("{}: {message}", case.name);
    assert_eq!(ours.load(1), twin.load(1), "{place}: the sheets differ");
    assert_eq!(ours.worst(message, 1) as u32, twin.worst(message, 1) as u32, "{place}: the prices on worst differ");
    let (a, b) = (ours.points(message, 1), twin.points(message, 1));
    assert!(a != u64::MAX && ours.hall()[..945] == twin.hall()[..945], "{place}: the seats differ");
    assert_eq!(price(a), price(b), "{place}: the prices on points differ");
    for (answer, form) in [(a, ours.form()), (b, twin.form())] {
        let expected = (standing(ours.hall()), price(a));
        assert_eq!(told(twin.sheet(), &form[..length(answer)]), expected, "{place}: a form of another reading");
    }
    let words = standing(ours.hall());
    assert_eq!(ours.say(&words, 2), twin.say(&words, 2), "{place}: the counts differ");
    assert!(ours.hall() == twin.hall(), "{place}: the halls differ");
}

pub fn agree(cases: &[Case]) {
    for case in cases {
        for message in &case.messages {
            agree_on(case, message);
        }
    }
}
