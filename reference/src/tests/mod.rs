//! The reference's own tests.

mod breaks;
mod canonical;
mod corners;
mod generated;
mod hand;
mod literal;
mod packing;
mod refusals;
mod reports;
mod skips;
mod storage;
mod storage_sights;
mod system;
mod text;
mod unsound;

use crate::runner::{run, Runner};

/// The output of a script.
pub fn output(script: &[u8]) -> Vec<u8> {
    let mut out = Vec::new();
    run(Runner::new(), &mut &script[..], &mut out).unwrap();
    out
}

/// The output of a script, as lines.
pub fn answers(script: &str) -> Vec<String> {
    let text = String::from_utf8(output(script.as_bytes())).unwrap();
    text.lines().map(|line| line.to_string()).collect()
}

/// Runs the left sides as a script; each must answer its right side.  A left side `dump`
/// has the lines of the dump but `.`, each without what follows its `*`, if any.
pub fn expect(pairs: &[(&str, &str)]) {
    let script: Vec<&str> = pairs.iter().map(|pair| pair.0).collect();
    let got = answers(&script.join("\n"));
    let mut wanted = Vec::new();
    for (line, answer) in pairs {
        wanted.extend(answer.lines().map(|a| a.trim().to_string()).filter(|a| !a.is_empty()));
        if *line == "dump" {
            wanted.push(".".to_string());
        }
    }
    for (i, answer) in wanted.iter().enumerate() {
        assert_eq!(got.get(i), Some(answer), "answer {} of {:?}\nall: {:#?}", i + 1, pairs, got);
    }
    assert_eq!(got.len(), wanted.len());
}

/// The bytes of the name area in a dump, taken at the end of a script, as hex digits.
pub fn names_of(script: &str) -> String {
    dumped(script, "names ").pop().map_or(String::new(), |line| line[6..].to_string())
}

/// The entries in such a dump: task, mode, name.
pub fn queued(script: &str) -> Vec<String> {
    // the line of names ends with the last byte not zero
    let names = names_of(script) + &"00".repeat(53);
    let byte = |at: usize| usize::from_str_radix(&names[2 * at..2 * at + 2], 16).unwrap();
    let told = |line: &String| {
        let words: Vec<&str> = line.split(' ').collect();
        let mode = if words[3] == "1" { "E" } else { "S" };
        let offset: usize = words[4].parse().unwrap();
        let minor = 2 * (offset + 9);
        let (major, end) = (&names[2 * offset..minor - 2], minor + 2 * byte(offset + 8));
        format!("{} {} {}.{}", words[2], mode, major, &names[minor..end])
    };
    dumped(script, "entry").iter().map(told).collect()
}

/// The lines of a dump, taken at the end of a script, that begin with a word.
pub fn dumped(script: &str, word: &str) -> Vec<String> {
    let mut all = answers(&format!("{}\ndump", script));
    let from = all.iter().rposition(|line| line.starts_with("step ")).unwrap();
    all.drain(..from);
    all.into_iter().filter(|line| line.starts_with(word)).collect()
}
