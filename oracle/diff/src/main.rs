//! The port and the published Rust on the same inputs.
//!
//!   diff [--seed S] [--times N] [--stub | --through COMMAND] [WORD..]
//!                                            compares the linked port, or the stub, or what a command answers (through.rs) with the Rust;
//!                                            exit status 1 on a difference
//!   diff --planted [--through COMMAND] [--seed S]
//!                                            plants the stub's faults, or those of the command, one by one; exit status 1 if one goes unseen
//!   diff --questions RUN [--seed S]          prints an index run as questions to the binary `oracle`
//!
//! The words are widen, lower, sqrt, vectors, orthonormalize, faces, layers, results, index, merge, rules. Without one all are run, lower
//! and sqrt over a part of the patterns; named, they run over all 2^32.

mod faces;
mod index;
mod inputs;
mod layers;
mod numbers;
mod port;
mod results;
mod rules;
mod stub;
mod tally;
mod vectors;

use inputs::Ask;
use numbers::Patterns;
use port::{through, Port};
use std::ops::RangeInclusive;
use std::process::exit;
use tally::Tally;

const WORDS: [&str; 11] = ["widen", "lower", "sqrt", "vectors", "orthonormalize", "faces", "layers", "results", "index", "merge", "rules"];

fn run(word: &str, port: &Port, ask: Ask, patterns: Patterns) -> Vec<Tally> {
    match word {
        "widen" => numbers::widen(port),
        "lower" => numbers::lower(port, patterns),
        "sqrt" => numbers::sqrt(port, patterns),
        "vectors" => vectors::vectors(port, ask),
        "orthonormalize" => vectors::orthonormalize(port, ask),
        "faces" => faces::faces(port, ask),
        "layers" => layers::layers(port, ask),
        "results" => results::results(port, ask),
        "index" => index::index(port, ask),
        "merge" => index::merge(port, ask),
        _ => rules::rules(port, ask),
    }
}

fn wrong(reason: &str) -> ! {
    eprintln!("diff: {reason}");
    eprintln!("usage: diff [--seed S] [--times N] [--stub | --through COMMAND] [WORD..]");
    eprintln!("     | diff --planted [--through COMMAND] [--seed S] | diff --questions RUN [--seed S]");
    eprintln!("words: {}", WORDS.join(" "));
    exit(2)
}

fn main() {
    // The published compute_similarity makes an error for every candidate, also when it is not needed; with backtraces that costs minutes.
    std::env::set_var("RUST_LIB_BACKTRACE", "0");
    let mut ask = Ask { seed: 1, times: 1, short: false };
    let (mut stubbed, mut planted, mut questions, mut command) = (false, false, None, None::<String>);
    let mut words: Vec<String> = Vec::new();
    let mut args = std::env::args().skip(1);
    while let Some(arg) = args.next() {
        let mut number = |from: RangeInclusive<u64>, what: &str| -> u64 {
            let given = args.next().and_then(|a| a.parse().ok()).filter(|n| from.contains(n));
            given.unwrap_or_else(|| wrong(&format!("{what} takes a number from {} to {}", from.start(), from.end())))
        };
        match arg.as_str() {
            "--seed" => ask.seed = number(0..=u64::MAX, "--seed"),
            "--times" => ask.times = number(1..=999999, "--times"),
            "--stub" => stubbed = true,
            "--through" => command = Some(args.next().unwrap_or_else(|| wrong("--through takes a command"))),
            "--planted" => planted = true,
            "--questions" => questions = Some(args.next().unwrap_or_else(|| wrong("--questions takes the name of a run"))),
            w if WORDS.contains(&w) => words.push(arg),
            _ => wrong(&format!("unknown: {arg}")),
        }
    }
    if let Some(name) = questions {
        match index::by_name(ask, &name) {
            Some(run) => run.questions().iter().for_each(|q| println!("{q}")),
            None => wrong(&format!("no run {name}")),
        }
        return;
    }
    if let Some(command) = &command {
        if stubbed {
            wrong("--stub and --through exclude each other");
        }
        through::start(command);
    }
    if planted {
        return if command.is_some() { all_planted_through(ask) } else { all_planted(ask) };
    }
    let (port, name) = match command {
        Some(_) => (Some(Port::through()), "the port through a pipe"),
        None if stubbed => (Some(Port::stub()), "the stub"),
        None => (Port::linked(), "the port"),
    };
    let Some(port) = port else { wrong("built without the port: set PORT to its object file and build again, or try --stub or --through") };
    println!("{name} against the published Rust, seed {}", ask.seed);
    let named = !words.is_empty();
    let (mut compared, mut differ) = (0, 0);
    for word in WORDS.iter().filter(|w| !named || words.iter().any(|x| x == *w)) {
        for t in run(word, &port, ask, if named { Patterns::All } else { Patterns::Part(1) }) {
            t.print();
            compared += t.compared;
            differ += t.differ;
        }
    }
    println!("together: {compared} compared, {differ} differ");
    if port.piped() {
        differ += asked_through(!named);
    }
    exit((differ > 0) as i32)
}

/// Prints what was asked of each export through the pipe. Answers how many calls changed what they may not write and, if each export is due,
/// how many were never asked.
fn asked_through(each_due: bool) -> u64 {
    let seen = through::seen();
    let (calls, changed) = seen.values().fold((0, 0), |(c, x), s| (c + s.calls, x + s.changed));
    let list = |count: fn(&through::Seen) -> u64| -> String {
        let some: Vec<String> = seen.iter().filter(|(_, s)| count(s) > 0).map(|(name, s)| format!("{name} {}", count(s))).collect();
        some.join(", ")
    };
    println!("calls through the pipe: {calls}, to {} of {} exports: {}", seen.len(), port::NAMES.len(), list(|s| s.calls));
    println!("memory that a call may only read, and what lies beside lent memory: {calls} calls, {changed} changed it");
    if changed > 0 {
        println!("    {}", list(|s| s.changed));
    }
    changed + if each_due { (port::NAMES.len() - seen.len()) as u64 } else { 0 }
}

/// Each fault of the stub by itself, over a small part of every word.
fn all_planted(ask: Ask) {
    let ask = Ask { short: true, times: 1, ..ask };
    let port = Port::stub();
    let noticed = || -> Vec<(&str, u64)> {
        let differ = |w: &&'static str| (*w, run(w, &port, ask, Patterns::Part(7)).iter().map(|t| t.differ).sum());
        WORDS.iter().map(|w| differ(&w)).filter(|(_, n)| *n > 0).collect()
    };
    stub::plant(stub::Fault::Nothing);
    let before = noticed();
    println!("no fault: {}", if before.is_empty() { "nothing noticed".into() } else { format!("noticed {before:?}") });
    let mut unseen = 0;
    for (fault, what) in stub::FAULTS {
        stub::plant(*fault);
        let by = noticed();
        unseen += by.is_empty() as usize;
        let by: Vec<String> = by.iter().map(|(w, n)| format!("{w} {n}")).collect();
        println!(
            "{} {fault:?}: {what}; differences: {}",
            if by.is_empty() { "UNSEEN" } else { "seen" },
            if by.is_empty() { "none".into() } else { by.join(", ") }
        );
    }
    println!("{} faults planted, {unseen} unseen", stub::FAULTS.len());
    exit((unseen > 0 || !before.is_empty()) as i32)
}

/// Each fault that the program at the other end can be told to make, over a small part of the words that ask the call, up to the first that
/// sees it. A call's answer may be wrong, or a memory that it was lent, or the byte behind the last of them.
fn all_planted_through(ask: Ask) {
    let ask = Ask { short: true, times: 1, ..ask };
    let port = Port::through();
    let changed = || through::seen().values().map(|s| s.changed).sum::<u64>();
    let noticed = |w: &str| {
        let before = changed();
        run(w, &port, ask, Patterns::Part(7)).iter().map(|t| t.differ).sum::<u64>() + changed() - before
    };
    let calls = |name: &str| through::seen().get(name).map_or(0, |s| s.calls);
    let mut asking = Vec::new();
    let mut before = 0;
    for w in WORDS {
        let counts: Vec<u64> = port::NAMES.iter().map(|n| calls(n)).collect();
        before += noticed(w);
        asking.push((w, port::NAMES.iter().zip(counts).filter(|(n, c)| calls(n) > *c).map(|(n, _)| *n).collect::<Vec<_>>()));
    }
    println!("no fault: {}", if before == 0 { "nothing noticed".into() } else { format!("{before} differences") });
    let (mut planted, mut unseen) = (0, 0);
    for name in port::NAMES {
        let lent = through::seen().get(name).map(|s| s.lent.clone()).unwrap_or_default();
        let mut faults = vec![("value".to_string(), "the answer".to_string())];
        for (i, letter) in lent.iter().enumerate() {
            let kind = if *letter == 'w' { "written" } else { "only read" };
            faults.push((format!("memory {i}"), format!("memory {i}, which is {kind}")));
        }
        if !lent.is_empty() {
            faults.push(("beside".into(), "the byte behind the last memory".into()));
        }
        for (fault, what) in faults {
            through::plant(name, &fault);
            let words = asking.iter().filter(|(_, names)| names.contains(name));
            let by = words.map(|(w, _)| (*w, noticed(w))).find(|(_, n)| *n > 0);
            planted += 1;
            unseen += by.is_none() as usize;
            match by {
                Some((w, n)) => println!("seen {name}, {what}: {w} {n}"),
                None => println!("UNSEEN {name}, {what}"),
            }
        }
    }
    println!("{planted} faults planted, {unseen} unseen");
    exit((unseen > 0 || before > 0) as i32)
}
