// The table of dotted rules, filled a column at a time by whole sets.
use super::items::{Items, NONE, grow, meets, or, step};
use super::sheet::Sheet;

fn position(i: usize, j: usize) -> usize {
    4 * (j * (j + 1) / 2 + i)
}

pub fn cell(table: &[u64], i: usize, j: usize) -> Items {
    let p = position(i, j);
    [table[p], table[p + 1], table[p + 2], table[p + 3]]
}

fn store(table: &mut [u64], i: usize, j: usize, items: Items) {
    let p = position(i, j);
    table[p..p + 4].copy_from_slice(&items);
}

// The set with all that it calls for, until nothing is new.
fn closed(mut set: Items, calls_for: impl Fn(Items) -> Items) -> Items {
    loop {
        let more = calls_for(set);
        if !grow(&mut set, more) {
            return set;
        }
    }
}

impl Sheet {
    fn related(&self, keys: &[Items; 32], values: &[Items; 32], items: Items) -> Items {
        let pairs = keys.iter().zip(values).take(self.names.len());
        pairs.fold(NONE, |set, (key, value)| or(set, if meets(items, *key) { *value } else { NONE }))
    }

    // The places before a name that is complete in the set.
    fn over(&self, items: Items) -> Items {
        self.related(&self.last, &self.before_name, items)
    }

    // The first places of the names that stand after a dot in the set.
    fn asked(&self, items: Items) -> Items {
        self.related(&self.before_name, &self.first, items)
    }

    // Passes the names that can stand for nothing.
    fn skip(&self, set: Items) -> Items {
        closed(set, |set| step(set, self.before_nullable))
    }

    // Passes the names of the base that are complete in the set.
    fn chain(&self, base: Items, set: Items) -> Items {
        closed(self.skip(set), |set| self.skip(step(base, self.over(set))))
    }

    // Opens the names that stand after a dot in the set.
    fn open(&self, set: Items) -> Items {
        closed(self.skip(set), |set| self.skip(self.asked(set)))
    }

    pub fn fill_column(&self, table: &mut [u64], j: usize, word: u8) {
        let mut overs = [NONE; 21];
        let mut wants = if j == 0 { self.first[self.start()] } else { NONE };
        for i in (0..j).rev() {
            let mut set = step(cell(table, i, j - 1), self.before_word[word as usize]);
            for m in i + 1..j {
                set = or(set, step(cell(table, i, m), overs[m]));
            }
            set = self.chain(cell(table, i, i), set);
            store(table, i, j, set);
            overs[i] = self.over(set);
            wants = or(wants, self.asked(set));
        }
        store(table, j, j, self.open(wants));
    }

    // The words that can come next, a bit for each, where column n is the last.
    pub fn offer(&self, table: &[u64], n: usize) -> u64 {
        let joint = (0..n + 1).fold(NONE, |set, i| or(set, cell(table, i, n)));
        (0..64).filter(|w| meets(joint, self.before_word[*w])).fold(0, |mask, w| mask | 1 << w)
    }

    pub fn is_command(&self, table: &[u64], n: usize) -> bool {
        meets(cell(table, 0, n), self.last[self.start()])
    }
}
