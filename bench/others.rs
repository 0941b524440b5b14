// What the other parsers' scripts wrote, and the instructions that were counted: from files, where they are there.
use std::collections::HashMap;
use std::fs::read_to_string;
use std::path::Path;

// The nanoseconds of a message, and the price of the tree that was given.
pub struct Parse {
    pub nanoseconds: f64,
    pub price: u32,
}

// Another parser's figures: by case and words a parse, and by case why there is none.
pub struct Other {
    parses: HashMap<(String, usize), Parse>,
    refusals: HashMap<String, String>,
}

impl Other {
    // None where the parser is not installed.
    pub fn from(file: &Path) -> Option<Other> {
        let text = read_to_string(file).ok()?;
        let mut other = Other { parses: HashMap::new(), refusals: HashMap::new() };
        for line in text.lines() {
            other.add(line);
        }
        Some(other)
    }

    fn add(&mut self, line: &str) -> Option<()> {
        let mut fields = line.split('\t');
        let case = fields.next()?.to_string();
        let words = fields.next()?.parse().ok()?;
        let nanoseconds: f64 = fields.next()?.parse().ok()?;
        let last = fields.next()?;
        if words == 0 {
            self.refusals.insert(case, last.to_string());
        } else {
            self.parses.insert((case, words), Parse { nanoseconds, price: last.parse().ok()? });
        }
        Some(())
    }

    pub fn parse(&self, case: &str, words: usize) -> Option<&Parse> {
        self.parses.get(&(case.to_string(), words))
    }

    pub fn refusal(&self, case: &str) -> Option<&str> {
        self.refusals.get(case).map(String::as_str)
    }
}

// The numbers in a file, one a line; none where it is not there.
pub fn numbers(file: &Path) -> Vec<u64> {
    let text = read_to_string(file).unwrap_or_default();
    text.lines().filter_map(|line| line.trim().parse().ok()).collect()
}
