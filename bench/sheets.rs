// The sheets that are measured, each with its messages.

// A sheet's text, and messages by which it is measured.
pub struct Case {
    pub name: String,
    pub sheet: String,
    pub messages: Vec<String>,
}

impl Case {
    pub fn rules(&self) -> usize {
        self.sheet.lines().filter(|line| line.starts_with("rule")).count()
    }
}

// The words of a message, fillers left aside: none of these messages has one.
pub fn count(message: &str) -> usize {
    message.split(' ').count()
}

// The same word over and over, for each of the counts.
fn repeated(counts: &[usize]) -> Vec<String> {
    counts.iter().map(|n| vec!["x"; *n].join(" ")).collect()
}

fn small() -> Case {
    let sheet = concat!(
        "rule\t0\tGo\thold\tOpt\tTool\nrule\t0\tOpt\nrule\t1\tOpt\tthe\nrule\t2\tOpt\tOpt\n",
        "rule\t0\tTool\tlathe\nrule\t3\tTool\tOpt\tlathe\n",
    );
    Case { name: "hold-the-lathe".into(), sheet: sheet.into(), messages: vec!["hold the lathe".into()] }
}

fn row() -> Case {
    Case { name: "one-row".into(), sheet: "rule\t0\tA\tA\tx\nrule\t0\tA\tx\n".into(), messages: repeated(&[3, 10, 20]) }
}

// As a school might write it, with a message of each length from 1 to 20.
fn school() -> Case {
    let (sheet, messages) = include_str!("school.txt").split_once("\n\n").expect("an empty line after the sheet");
    Case { name: "school".into(), sheet: format!("{sheet}\n"), messages: messages.lines().map(String::from).collect() }
}

// Names in cycles, every other one of which can stand for nothing.
fn cycles() -> Case {
    let mut sheet = String::new();
    for a in 0..28 {
        sheet += &format!("rule\t{a}\tN{a}\tN{}\tN{}\n", (a + 1) % 28, (a + 7) % 28);
        sheet += &format!("rule\t{a}\tN{a}\tN{}\nrule\t{a}\tN{a}\tx\n", (a + 1) % 28);
        if a % 2 == 0 {
            sheet += &format!("rule\t{a}\tN{a}\n");
        }
    }
    Case { name: "cycles".into(), sheet, messages: repeated(&[3, 10, 20]) }
}

// All 256 places, nearly all of them in rules of eight names that can stand for nothing. Each name needs the next over
// the same words, so every stretch passes through all of them, and the cheapest form has 8,151 numbers.
fn heaviest() -> Case {
    let mut sheet = String::new();
    for a in 0..26 {
        sheet += &format!("rule\t1\tN{a}\tN{}{}\n", a + 1, "\tE".repeat(7));
    }
    sheet += "rule\t1\tN26\tx\nrule\t1\tN26\tN0\tN0\nrule\t1\tN26\n";
    sheet += "rule\t0\tE\nrule\t65535\tE\tN0\n";
    sheet += &format!("rule\t9\tN0{}\nrule\t9\tN0{}\n", "\tE".repeat(8), "\tE".repeat(3));
    Case { name: "heaviest".into(), sheet, messages: repeated(&[3, 10, 20]) }
}

// Parts of several kinds, one after the other, in so many rules: a sheet that grows, for one message of ten words.
fn parts(rules: usize) -> Case {
    let kinds = ((rules - 2) / 4).min(29);
    let spelled = rules - 2 - kinds;
    let mut sheet = String::from("rule\t0\tAll\tPart\tAll\nrule\t0\tAll\n");
    for a in 0..kinds {
        sheet += &format!("rule\t{}\tPart\tKind{a}\n", a % 5);
    }
    for k in 0..spelled {
        sheet += &format!("rule\t{}\tKind{}\tw{}\n", k % 7, k % kinds, k % (spelled.min(40)));
    }
    let words: Vec<String> = (0..10).map(|k| format!("w{}", k * 7 % spelled.min(40))).collect();
    Case { name: format!("parts-{rules}"), sheet, messages: vec![words.join(" ")] }
}

// 16,384 bytes: as many names, words, rules, aliases and places as may be, spelled long, then fillers that are looked up last.
pub fn full() -> String {
    let name = |a: usize| format!("Name{:011}", a % 32);
    let word = |w: usize| format!("word{:011}", w % 64);
    let mut sheet = String::new();
    for k in 0..128 {
        let weight = if k < 9 { 9999 } else { 65535 };
        sheet += &format!("rule\t{weight}\t{}\t{}\n", name(k), if k < 32 { word(k) } else { name(k + 1) });
    }
    for k in 0..16 {
        sheet += &format!("alias\t{}\t{}\n", word(32 + k), word(48 + k));
    }
    while sheet.len() + 23 <= 16384 {
        sheet += &format!("filler\t{}\n", word(63));
    }
    sheet
}

// The sheets on which short, middle and long messages are heard and read.
pub fn cases() -> Vec<Case> {
    vec![small(), row(), school(), cycles(), heaviest()]
}

// Sheets that grow.
pub fn growing() -> Vec<Case> {
    [10, 20, 30, 40, 50, 60, 70, 80, 90, 100, 110, 120, 128].map(parts).into()
}

// Whether a message of so many words stands in the tables: a short, a middle or a long one.
pub fn is_tabled(words: usize) -> bool {
    [3, 10, 20].contains(&words)
}
