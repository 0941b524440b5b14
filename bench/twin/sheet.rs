// The sheet with its masks. It takes texts that are known to load, and tests nothing.
use super::items::{Items, NONE, put};

#[derive(Clone, Copy, PartialEq)]
pub enum Symbol {
    Name(usize),
    Word(u8),
}

pub struct Rule {
    pub weight: u16,
    pub left: usize,
    pub symbols: Vec<Symbol>,
    // The place after its last symbol.
    pub last: usize,
}

pub struct Sheet {
    pub rules: Vec<Rule>,
    pub names: Vec<String>,
    pub words: Vec<String>,
    pub aliases: Vec<(u8, u8)>,
    pub fillers: u64,
    pub before_name: [Items; 32],
    pub before_word: [Items; 64],
    pub first: [Items; 32],
    pub last: [Items; 32],
    pub before_nullable: Items,
}

fn number(list: &mut Vec<String>, spelling: &str) -> usize {
    list.iter().position(|s| s == spelling).unwrap_or_else(|| {
        list.push(spelling.to_string());
        list.len() - 1
    })
}

impl Sheet {
    pub fn load(text: &str) -> Sheet {
        let mut sheet = Sheet {
            rules: vec![],
            names: vec![],
            words: vec![],
            aliases: vec![],
            fillers: 0,
            before_name: [NONE; 32],
            before_word: [NONE; 64],
            first: [NONE; 32],
            last: [NONE; 32],
            before_nullable: NONE,
        };
        for line in text.lines() {
            sheet.read_line(line);
        }
        sheet.mark();
        sheet
    }

    pub fn start(&self) -> usize {
        self.rules[0].left
    }

    fn read_line(&mut self, line: &str) {
        let mut fields = line.split('\t');
        let kind = fields.next().unwrap();
        let mut next = || fields.next().unwrap();
        match kind {
            "rule" => {
                let weight = next().parse().unwrap();
                let left = number(&mut self.names, next());
                let symbols: Vec<Symbol> = fields.map(|field| self.symbol(field)).collect();
                let first = self.rules.last().map_or(0, |rule| rule.last + 1);
                self.rules.push(Rule { weight, left, last: first + symbols.len(), symbols });
            }
            "alias" => {
                let said = number(&mut self.words, next()) as u8;
                let meant = number(&mut self.words, next()) as u8;
                self.aliases.push((said, meant));
            }
            _ => self.fillers |= 1 << number(&mut self.words, next()),
        }
    }

    fn symbol(&mut self, field: &str) -> Symbol {
        if field.as_bytes()[0].is_ascii_uppercase() {
            Symbol::Name(number(&mut self.names, field))
        } else {
            Symbol::Word(number(&mut self.words, field) as u8)
        }
    }

    fn nullable(&self) -> Vec<bool> {
        let mut known = vec![false; self.names.len()];
        loop {
            let mut changed = false;
            for rule in &self.rules {
                if !known[rule.left] && rule.symbols.iter().all(|s| matches!(s, Symbol::Name(a) if known[*a])) {
                    known[rule.left] = true;
                    changed = true;
                }
            }
            if !changed {
                return known;
            }
        }
    }

    fn mark(&mut self) {
        let nullable = self.nullable();
        for rule in &self.rules {
            let start = rule.last - rule.symbols.len();
            put(&mut self.first[rule.left], start);
            put(&mut self.last[rule.left], rule.last);
            for (place, symbol) in (start..).zip(&rule.symbols) {
                match *symbol {
                    Symbol::Name(a) => {
                        put(&mut self.before_name[a], place);
                        if nullable[a] {
                            put(&mut self.before_nullable, place);
                        }
                    }
                    Symbol::Word(w) => put(&mut self.before_word[w as usize], place),
                }
            }
        }
    }
}
