// Measures the proved crates beside their plain twin and other parsers: the same sheets and messages.
// The benchmark makes two of the calls.
#[allow(dead_code)]
#[path = "../examples/beachwhisk/calls.rs"]
mod calls;
mod check;
mod library;
mod measure;
mod others;
mod plain;
mod plot;
mod proved;
mod report;
mod sheets;
mod subject;
mod twin;

use plain::Plain;
use proved::Proved;
use sheets::{Case, cases, count, growing, is_tabled};
use std::path::Path;
use subject::Subject;

// Every sheet with its messages, for the other parsers' scripts.
fn write(folder: &Path) -> std::io::Result<()> {
    for Case { name, sheet, messages } in cases().into_iter().chain(growing()) {
        std::fs::write(folder.join(format!("{name}.sheet")), sheet)?;
        std::fs::write(folder.join(format!("{name}.messages")), messages.join("\n") + "\n")?;
    }
    Ok(())
}

// The one function in which instructions are counted, a number for each time it is left.
#[unsafe(no_mangle)]
#[inline(never)]
extern "C" fn counted(subject: &mut &mut dyn Subject, message: &mut &str, rounds: u32) -> u64 {
    subject.points(message, rounds)
}

// For each message, of ours and of the twin, the instructions of no round and of one.
fn count_all() {
    for case in &cases() {
        for mut message in case.messages.iter().map(String::as_str).filter(|message| is_tabled(count(message))) {
            let (mut ours, mut twin) = (Proved::of(&case.sheet), Plain::of(&case.sheet));
            for mut subject in [&mut ours as &mut dyn Subject, &mut twin] {
                counted(&mut subject, &mut message, 0);
                counted(&mut subject, &mut message, 1);
            }
        }
    }
}

fn main() -> std::io::Result<()> {
    let arguments: Vec<String> = std::env::args().skip(1).collect();
    match arguments.iter().map(String::as_str).collect::<Vec<_>>()[..] {
        ["write", folder] => write(Path::new(folder)),
        ["count"] => {
            count_all();
            Ok(())
        }
        ["report", folder] => report::report(Path::new(folder)),
        _ => {
            eprintln!("usage: bench write FOLDER | count | report FOLDER");
            std::process::exit(2)
        }
    }
}
