// A cheapest reading of the words standing: prices cell by cell, then the walk that writes the form.
use super::items::{Items, has};
use super::prices::{Cell, Column, NAMES, Prices, cheaper};
use super::scale::Scale;
use super::sheet::{Rule, Sheet, Symbol};
use super::table;

pub struct Reading<S: Scale> {
    pub length: usize,
    pub price: S::Price,
}

// A rule that the table shows complete, and what it offers its left name.
#[derive(Clone, Copy)]
struct Candidate<P> {
    rule: usize,
    offer: Option<P>,
}

// The name over (i, j), of whose rule d symbols are written, up to m.
struct Frame {
    i: usize,
    j: usize,
    name: usize,
    d: usize,
    m: usize,
}

// The memory of a read, kept from one to the next.
pub struct Scratch<S: Scale> {
    pub form: Vec<u8>,
    prices: Prices<S>,
    column: Column<S>,
    candidates: Vec<Candidate<S::Price>>,
    stack: Vec<Frame>,
}

impl<S: Scale> Scratch<S> {
    pub fn new() -> Self {
        Scratch {
            form: Vec::with_capacity(10240),
            prices: Prices::new(),
            column: [None; 21],
            candidates: Vec::with_capacity(128),
            stack: Vec::with_capacity(640),
        }
    }
}

struct Reader<'a, S: Scale> {
    sheet: &'a Sheet,
    words: &'a [u8],
    scratch: &'a mut Scratch<S>,
}

impl<S: Scale> Reader<'_, S> {
    fn offer(&mut self, cell: Cell, rule: &Rule) -> Option<S::Price> {
        let Scratch { prices, column, .. } = self.scratch;
        let Some((first, others)) = rule.symbols.split_first() else {
            return (cell.i == cell.j).then(|| S::weigh(rule.weight));
        };
        prices.cut(self.words, cell, others, cell.i, column);
        let cut = prices.best_end(self.words, cell, *first, cell.i, column);
        cut.map(|(_, price)| S::join(S::weigh(rule.weight), price))
    }

    // What the rule offers once the name is final over the cell; `before` is what it offered so far.
    fn offer_again(&mut self, cell: Cell, rule: &Rule, name: usize, before: Option<S::Price>) -> Option<S::Price> {
        let mut best = before;
        for d in 0..rule.symbols.len() {
            if rule.symbols[d] != Symbol::Name(name) {
                continue;
            }
            if cell.i == cell.j {
                return self.offer(cell, rule);
            }
            if let Some(price) = self.scratch.prices.whole(self.words, cell, &rule.symbols, d) {
                let price = S::join(S::weigh(rule.weight), price);
                if cheaper::<S>(best, price) {
                    best = Some(price);
                }
            }
        }
        best
    }

    fn gather(&mut self, cell: Cell, shown: Items) {
        self.scratch.candidates.clear();
        if shown == [0; 4] {
            return;
        }
        let sheet = self.sheet;
        for (number, rule) in sheet.rules.iter().enumerate() {
            if has(shown, rule.last) {
                let offer = self.offer(cell, rule);
                self.scratch.candidates.push(Candidate { rule: number, offer });
            }
        }
    }

    fn cheapest(&self) -> Option<(usize, S::Price)> {
        let mut best = None;
        for candidate in &self.scratch.candidates {
            if let Some(offer) = candidate.offer
                && cheaper::<S>(best.map(|(_, price)| price), offer)
            {
                best = Some((candidate.rule, offer));
            }
        }
        best
    }

    fn renew(&mut self, cell: Cell, name: usize) {
        let sheet = self.sheet;
        for k in 0..self.scratch.candidates.len() {
            let Candidate { rule, offer } = self.scratch.candidates[k];
            let rule = &sheet.rules[rule];
            if rule.left == name {
                self.scratch.candidates[k].offer = None;
            } else if self.scratch.prices.get(cell.i, cell.j, rule.left).is_none() {
                self.scratch.candidates[k].offer = self.offer_again(cell, rule, name, offer);
            }
        }
    }

    // The names of the cell from the cheapest on, each with its rule and its rank.
    fn fill_cell(&mut self, i: usize, j: usize, shown: Items) {
        self.gather(Cell { i, j, rank: 0 }, shown);
        for rank in 0..NAMES {
            let Some((rule, price)) = self.cheapest() else {
                return;
            };
            let name = self.sheet.rules[rule].left;
            self.scratch.prices.put(Cell { i, j, rank }, name, price, rule);
            self.renew(Cell { i, j, rank: rank + 1 }, name);
        }
    }

    fn fill(&mut self, table: &[u64]) {
        self.scratch.prices.clear();
        for j in 0..self.words.len() + 1 {
            for i in (0..j + 1).rev() {
                self.fill_cell(i, j, table::cell(table, i, j));
            }
        }
    }

    // Writes the name's rule, or 0 over no words; what it opens comes on the stack.
    fn open(&mut self, i: usize, j: usize, name: usize) {
        if i == j {
            self.scratch.form.push(0);
            return;
        }
        let (_, rule) = self.scratch.prices.choice(i, j, name);
        self.scratch.form.push(rule as u8 + 1);
        self.scratch.stack.push(Frame { i, j, name, d: 0, m: i });
    }

    // The next symbol of the frame on top.
    fn turn(&mut self, frame: Frame) {
        let Frame { i, j, name, d, m } = frame;
        let (rank, rule) = self.scratch.prices.choice(i, j, name);
        let symbols = &self.sheet.rules[rule].symbols;
        let Some(symbol) = symbols.get(d) else {
            return;
        };
        let cell = Cell { i, j, rank };
        let Scratch { prices, column, .. } = &mut *self.scratch;
        prices.cut(self.words, cell, &symbols[d + 1..], m, column);
        let to = prices.best_end(self.words, cell, *symbol, m, column).map_or(m, |(to, _)| to);
        self.scratch.stack.push(Frame { i, j, name, d: d + 1, m: to });
        if let Symbol::Name(below) = *symbol {
            self.open(m, to, below);
        }
    }

    fn walk(&mut self) {
        self.scratch.form.clear();
        self.scratch.stack.clear();
        self.open(0, self.words.len(), self.sheet.start());
        while let Some(frame) = self.scratch.stack.pop() {
            self.turn(frame);
        }
    }
}

// Reads words that are a command, by their table.
pub fn write_reading<S: Scale>(sheet: &Sheet, words: &[u8], table: &[u64], scratch: &mut Scratch<S>) -> Reading<S> {
    let mut reader = Reader { sheet, words, scratch };
    reader.fill(table);
    reader.walk();
    let price = reader.scratch.prices.get(0, words.len(), sheet.start()).expect("a command has a price");
    Reading { length: reader.scratch.form.len(), price }
}
