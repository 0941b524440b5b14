// The prices of names over stretches, and the cheapest cuts of symbols by them.
use super::scale::Scale;
use super::sheet::Symbol;

pub const NAMES: usize = 32;
const CELLS: usize = 21 * 22 / 2;

// The stretch from i to j, of whose own names those of a rank below this one count.
#[derive(Clone, Copy)]
pub struct Cell {
    pub i: usize,
    pub j: usize,
    pub rank: usize,
}

// The cheapest price from each position on, where there is one.
pub type Column<S> = [Option<<S as Scale>::Price>; 21];

// Of each name over each stretch a price, and its rank and rule as one number, 0 where it has none.
pub struct Prices<S: Scale> {
    prices: Vec<S::Price>,
    numbers: Vec<u32>,
}

fn place(i: usize, j: usize, name: usize) -> usize {
    NAMES * (j * (j + 1) / 2 + i) + name
}

pub fn cheaper<S: Scale>(best: Option<S::Price>, other: S::Price) -> bool {
    !best.is_some_and(|b| S::no_dearer(b, other))
}

impl<S: Scale> Prices<S> {
    pub fn new() -> Self {
        Prices { prices: vec![S::Price::default(); CELLS * NAMES], numbers: vec![0; CELLS * NAMES] }
    }

    pub fn clear(&mut self) {
        self.numbers.fill(0);
    }

    pub fn put(&mut self, cell: Cell, name: usize, price: S::Price, rule: usize) {
        let at = place(cell.i, cell.j, name);
        self.prices[at] = price;
        self.numbers[at] = (256 * cell.rank + rule + 1) as u32;
    }

    pub fn get(&self, i: usize, j: usize, name: usize) -> Option<S::Price> {
        let at = place(i, j, name);
        if self.numbers[at] == 0 { None } else { Some(self.prices[at]) }
    }

    // The rank and the rule of a name that has a price.
    pub fn choice(&self, i: usize, j: usize, name: usize) -> (usize, usize) {
        let number = self.numbers[place(i, j, name)] as usize;
        (number / 256, number % 256 - 1)
    }

    // The price of a symbol from m to n.
    pub fn symbol(&self, words: &[u8], cell: Cell, symbol: Symbol, m: usize, n: usize) -> Option<S::Price> {
        match symbol {
            Symbol::Word(w) => (n == m + 1 && words[m] == w).then(|| S::weigh(0)),
            Symbol::Name(a) => {
                let at = place(m, n, a);
                let number = self.numbers[at];
                let own = m == cell.i && n == cell.j;
                if number == 0 || own && (number / 256) as usize >= cell.rank { None } else { Some(self.prices[at]) }
            }
        }
    }

    // The cheapest cuts of the symbols from every position from there on to the cell's end.
    pub fn cut(&self, words: &[u8], cell: Cell, symbols: &[Symbol], from: usize, column: &mut Column<S>) {
        column[from..cell.j].fill(None);
        column[cell.j] = Some(S::weigh(0));
        for symbol in symbols.iter().rev() {
            for m in from..cell.j + 1 {
                column[m] = self.best_end(words, cell, *symbol, m, column).map(|(_, price)| price);
            }
        }
    }

    // Where the symbol's stretch from m ends in a cheapest cut, given the cuts of what follows; and the price.
    pub fn best_end(
        &self,
        words: &[u8],
        cell: Cell,
        symbol: Symbol,
        m: usize,
        column: &Column<S>,
    ) -> Option<(usize, S::Price)> {
        let mut best = None;
        for n in m..cell.j + 1 {
            if let Some(rest) = column[n]
                && let Some(first) = self.symbol(words, cell, symbol, m, n)
            {
                let both = S::join(first, rest);
                if cheaper::<S>(best.map(|(_, price)| price), both) {
                    best = Some((n, both));
                }
            }
        }
        best
    }

    // The price of the symbols where the d-th takes the whole cell, and those beside it nothing.
    pub fn whole(&self, words: &[u8], cell: Cell, symbols: &[Symbol], d: usize) -> Option<S::Price> {
        let mut price = S::weigh(0);
        for (e, symbol) in symbols.iter().enumerate().rev() {
            let (m, n) = match e.cmp(&d) {
                std::cmp::Ordering::Less => (cell.i, cell.i),
                std::cmp::Ordering::Equal => (cell.i, cell.j),
                std::cmp::Ordering::Greater => (cell.j, cell.j),
            };
            price = S::join(self.symbol(words, cell, *symbol, m, n)?, price);
        }
        Some(price)
    }
}
