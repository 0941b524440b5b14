// The tables of figures, and the plot.
use crate::check::agree;
use crate::library::Library;
use crate::measure::least;
use crate::others::{Other, Parse, numbers};
use crate::plain::Plain;
use crate::plot::{Axis, Panel, Series, draw, time};
use crate::proved::Proved;
use crate::sheets::{Case, cases, count, full, growing, is_tabled};
use crate::subject::{Subject, price};
use std::path::Path;

// A message heard and read: nanoseconds of ours, the twin and the library's calls, and what the others wrote.
struct Row {
    case: String,
    rules: usize,
    words: usize,
    price: u32,
    ours: f64,
    twin: f64,
    library: f64,
}

struct Others {
    marpa: Option<Other>,
    lark: Option<Other>,
}

fn measured(case: &Case, message: &str) -> Row {
    let (mut ours, mut twin, mut library) = (Proved::of(&case.sheet), Plain::of(&case.sheet), Library::of(&case.sheet));
    let price = price(ours.points(message, 1));
    assert_eq!(u64::from(price), library.points(message, 1), "{}: the library's price differs", case.name);
    let [ours, twin, library] = least([&mut |n| ours.points(message, n), &mut |n| twin.points(message, n), &mut |n| {
        library.points(message, n)
    }]);
    Row { case: case.name.clone(), rules: case.rules(), words: count(message), price, ours, twin, library }
}

fn rows(cases: &[Case]) -> Vec<Row> {
    cases.iter().flat_map(|case| case.messages.iter().map(move |message| measured(case, message))).collect()
}

fn print_messages(rows: &[Row]) {
    println!("### A message heard and read\n");
    println!(
        "| sheet | rules | words | ours | messages a second | twin | ours / twin |\n|---|---|---|---|---|---|---|"
    );
    for row in rows.iter().filter(|row| is_tabled(row.words)) {
        let Row { case, rules, words, ours, twin, .. } = row;
        println!(
            "| {case} | {rules} | {words} | {} | {:.0} | {} | {:.2} |",
            time(*ours),
            1e9 / ours,
            time(*twin),
            ours / twin
        );
    }
}

// Another parser's time for a row, its ratios to ours and to the twin's, and its tree's price; or why there is none.
fn beside(other: &Option<Other>, row: &Row) -> String {
    let Some(other) = other else {
        return "not installed | | |".into();
    };
    match other.parse(&row.case, row.words) {
        Some(Parse { nanoseconds: taken, price }) => {
            format!("{} | {:.1} | {:.1} | {price}", time(*taken), taken / row.ours, taken / row.twin)
        }
        None => format!("{} | | |", other.refusal(&row.case).unwrap_or("none")),
    }
}

fn print_others(rows: &[Row], grown: &[Row], others: &Others) {
    println!("\n### Beside Marpa and Lark\n");
    println!(
        "| sheet | words | cheapest price | Marpa | to ours | to the twin | its price | Lark | to ours | to the twin | its price |"
    );
    println!("|---|---|---|---|---|---|---|---|---|---|---|");
    for row in rows.iter().filter(|row| is_tabled(row.words)) {
        println!(
            "| {} | {} | {} | {} | {} |",
            row.case,
            row.words,
            row.price,
            beside(&others.marpa, row),
            beside(&others.lark, row)
        );
    }
    println!();
    for (name, other) in [("Marpa", &others.marpa), ("Lark", &others.lark)] {
        let Some(other) = other else {
            println!("{name} is not installed here.");
            continue;
        };
        let all: Vec<&Row> = rows.iter().chain(grown).collect();
        let cheapest = all
            .iter()
            .filter(|row| other.parse(&row.case, row.words).is_some_and(|parse| parse.price <= row.price))
            .count();
        println!("- {name} gave a cheapest tree for {cheapest} of {} messages.", all.len());
    }
}

fn print_instructions(rows: &[Row], counts: &[u64]) {
    println!("\n### Instructions of a message heard and read\n");
    if counts.is_empty() {
        println!("valgrind is not installed, so none were counted.");
        return;
    }
    println!("| sheet | words | ours | twin | ours / twin |\n|---|---|---|---|---|");
    for (row, counts) in rows.iter().filter(|row| is_tabled(row.words)).zip(counts.chunks_exact(4)) {
        let (ours, twin) = (counts[1] - counts[0], counts[3] - counts[2]);
        println!("| {} | {} | {ours} | {twin} | {:.2} |", row.case, row.words, ours as f64 / twin as f64);
    }
}

fn print_library(rows: &[Row]) {
    println!("\n### The same by the library's two calls, each of which loads the sheet\n");
    println!("| sheet | rules | words | library | without the loads |\n|---|---|---|---|---|");
    for row in rows.iter().filter(|row| is_tabled(row.words)) {
        println!("| {} | {} | {} | {} | {} |", row.case, row.rules, row.words, time(row.library), time(row.ours));
    }
}

fn print_loads(cases: &[Case]) {
    println!("\n### A sheet loaded\n");
    println!("| sheet | bytes | ours | twin, which tests nothing | ours / twin |\n|---|---|---|---|---|");
    let full = full();
    let sheets = cases.iter().map(|case| (case.name.as_str(), case.sheet.as_str())).chain([("full", full.as_str())]);
    for (name, sheet) in sheets {
        let (mut ours, mut twin) = (Proved::of(sheet), Plain::of(sheet));
        assert_eq!(ours.load(1), twin.load(1), "{name}: the sheets differ");
        let [a, b] = least([&mut |n| ours.load(n), &mut |n| twin.load(n)]);
        println!("| {name} | {} | {} | {} | {:.2} |", sheet.len(), time(a), time(b), a / b);
    }
}

// The times of the k-th say of a case's longest message, ours and the twin's.
fn says(case: &Case) -> Vec<[f64; 2]> {
    let message = case.messages.last().expect("a case has messages");
    let (mut ours, mut twin) = (Proved::of(&case.sheet), Plain::of(&case.sheet));
    ours.hear(message, 1);
    let words: Vec<u8> = ours.hall()[1..21].iter().map(|word| *word as u8).collect();
    (1..21).map(|k| least([&mut |n| ours.say(&words[..k], n), &mut |n| twin.say(&words[..k], n)])).collect()
}

fn print_says(cases: &[Case]) {
    println!("\n### The k-th say\n");
    let cases: Vec<&Case> = cases.iter().filter(|case| ["school", "heaviest"].contains(&case.name.as_str())).collect();
    let head: Vec<String> =
        cases.iter().map(|case| format!("{0}, ours | {0}, twin | ours / twin", case.name)).collect();
    println!("| k | {} |\n|---|{}", head.join(" | "), "---|".repeat(3 * cases.len()));
    let columns: Vec<Vec<[f64; 2]>> = cases.into_iter().map(says).collect();
    for k in 0..20 {
        let cells: Vec<String> = columns
            .iter()
            .map(|times| times[k])
            .map(|[a, b]| format!("{} | {} | {:.2}", time(a), time(b), a / b))
            .collect();
        println!("| {} | {} |", k + 1, cells.join(" | "));
    }
}

fn print_memory(code: &[u64]) {
    println!("\n### Memory\n");
    println!("| what | bytes |\n|---|---|");
    println!("| a seat, 945 numbers of 64 bits | {} |\n| a hall of four seats | {} |", 945 * 8, 3780 * 8);
    println!(
        "| lent to a reading on points: the form, 8,192 prices, 8,192 numbers | {} |",
        10240 + 8192 * 4 + 8192 * 4
    );
    if let [text, data, ..] = code {
        println!("| code of the whole library | {text} |\n| its data | {data} |");
    }
}

fn series(rows: &[Row], others: &Others, across: impl Fn(&Row) -> f64) -> Vec<Series> {
    let of =
        |time: &dyn Fn(&Row) -> Option<f64>| rows.iter().filter_map(|row| Some((across(row), time(row)?))).collect();
    let by = |other: &Option<Other>| of(&|row| Some(other.as_ref()?.parse(&row.case, row.words)?.nanoseconds));
    vec![
        Series { name: "ours", colour: "#0b6bcb", points: of(&|row| Some(row.ours)) },
        Series { name: "twin", colour: "#e8710a", points: of(&|row| Some(row.twin)) },
        Series { name: "Marpa", colour: "#2e8540", points: by(&others.marpa) },
        Series { name: "Lark", colour: "#a3265a", points: by(&others.lark) },
    ]
}

// Time against words and against rules: ours and the twin's alone, then all of them.
fn plots(words: &[Row], rules: &[Row], others: &Others) -> Vec<Panel> {
    let (by_words, by_rules) = (|row: &Row| row.words as f64, |row: &Row| row.rules as f64);
    let panel = |title: &str, across, axis, mut series: Vec<Series>| {
        series.retain(|s| !s.points.is_empty());
        Panel { title: title.into(), across, axis, series }
    };
    let two = |mut series: Vec<Series>| {
        series.truncate(2);
        series
    };
    vec![
        panel(
            "Time of a message on a school's sheet of 60 rules",
            "words of the message",
            Axis::Linear,
            two(series(words, others, by_words)),
        ),
        panel(
            "Time of ten words on a sheet that grows",
            "rules of the sheet",
            Axis::Linear,
            two(series(rules, others, by_rules)),
        ),
        panel(
            "The same beside Marpa and Lark, on a log axis",
            "words of the message",
            Axis::Log,
            series(words, others, by_words),
        ),
        panel(
            "The same beside Marpa and Lark, on a log axis",
            "rules of the sheet",
            Axis::Log,
            series(rules, others, by_rules),
        ),
    ]
}

pub fn report(folder: &Path) -> std::io::Result<()> {
    let (cases, growing) = (cases(), growing());
    agree(&cases);
    agree(&growing);
    let others = Others { marpa: Other::from(&folder.join("marpa.tsv")), lark: Other::from(&folder.join("lark.tsv")) };
    let (messages, grown) = (rows(&cases), rows(&growing));
    print_messages(&messages);
    print_instructions(&messages, &numbers(&folder.join("instructions")));
    print_library(&messages);
    print_loads(&cases);
    print_says(&cases);
    print_memory(&numbers(&folder.join("code")));
    print_others(&messages, &grown, &others);
    let words: Vec<Row> = messages.into_iter().filter(|row| row.case == "school").collect();
    std::fs::write(folder.join("times.svg"), draw(&plots(&words, &grown, &others)))
}
