//! The independent reader, writer, lister and station that the library is held against, and the scripts for it.

mod answer;
mod answering;
mod breaks;
mod call;
mod capture;
mod cases;
mod changes;
mod draft;
mod events;
mod forged;
mod frame;
mod grounds;
mod hold;
mod lends;
mod lister;
mod nonsense;
mod oddities;
mod parts;
mod pass;
mod peers;
mod queue;
mod random;
mod reach;
mod refusal;
mod replay;
mod request;
mod ring;
mod rings;
mod rows;
mod runs;
mod sample;
mod script;
mod settings;
mod starts;
mod station;
mod submits;
mod text;
mod times;
mod transitions;

use std::io::{self, BufRead, Read, Write};
use std::process::ExitCode;

const USAGE: &str = "\
reference frames SEED COUNT   a script for reader and writer, with COUNT seeded strings to read
reference lists SEED COUNT    a script for the lister, with COUNT seeded captures of each ending
reference answer              a script on standard input: its answers
reference reach               lines of call, tab, answer on standard input: what was reached
reference list                a capture on standard input: its listing
reference capture SEED KIND   a seeded capture: end, short, long, count or full
reference sample NAME         a sample capture: document, run, damaged or cut
reference times SEED COUNT    a script of times, with COUNT seeded settings
reference rings SEED COUNT    a script of the search for NS and PS, with COUNT seeded sets of many masters
reference changes SEED COUNT  a script of enterings and removals, with COUNT seeded pairs of lines for each law
reference rows SEED CALLS     a script of calls on rows, with CALLS in lawful rows and as many in damaged ones
reference parts               a script of times, rings or rows on standard input: its answers
reference runs SEED CALLS     a replay script of many stations, with CALLS lines at least
reference replay              a replay script on standard input: its answers
reference transitions         a replay script on standard input: how often it took each transition
reference forged SEED COUNT   a script of COUNT calls on forged stations
reference refusal             a script of forged stations on standard input: the refusals
reference grounds             a script of forged stations on standard input: how often each ground decided
";

fn main() -> ExitCode {
    match run() {
        Ok(true) => ExitCode::SUCCESS,
        Ok(false) => ExitCode::from(1),
        Err(message) => {
            eprintln!("reference: {}", message.trim_end());
            ExitCode::from(2)
        }
    }
}

/// Runs the subcommand; false if `reach`, `transitions` or `grounds` found something missing.
fn run() -> Result<bool, String> {
    let arguments: Vec<String> = std::env::args().skip(1).collect();
    let words: Vec<&str> = arguments.iter().map(String::as_str).collect();
    let number = |word: &str| word.parse::<u64>().map_err(|_| USAGE.to_string());
    let output = match words[..] {
        ["frames", seed, count] => lines(script::frames(number(seed)?, number(count)? as usize)),
        ["lists", seed, count] => lines(script::lists(number(seed)?, number(count)? as usize)),
        ["answer"] => lines(answers(answer::answer)?),
        ["reach"] => return reached(),
        ["list"] => lister::list(&standard_input()?).into_bytes(),
        ["capture", seed, kind] => capture::of_kind(kind, number(seed)?).ok_or(USAGE)?,
        ["sample", name] => sample::of_name(name).ok_or(USAGE)?,
        ["times", seed, count] => lines(settings::times(number(seed)?, number(count)? as usize)),
        ["rings", seed, count] => lines(rings::rings(number(seed)?, number(count)? as usize)),
        ["changes", seed, count] => lines(changes::changes(number(seed)?, number(count)? as usize)),
        ["rows", seed, calls] => lines(lends::rows(number(seed)?, number(calls)? as usize)),
        ["parts"] => {
            let mut parts = parts::Parts::default();
            lines(answers(|call| parts.answer(call))?)
        }
        ["runs", seed, calls] => lines(runs::runs(number(seed)?, number(calls)? as usize)),
        ["replay"] => replay::Replay::default().answers(&standard_input()?).into_bytes(),
        ["transitions"] => return transitions_taken(),
        ["forged", seed, count] => lines(forged::forged(number(seed)?, number(count)? as usize)),
        ["refusal"] => lines(answers(|line| Ok(refusal::answer(&cases::Case::read(line)?)))?),
        ["grounds"] => return grounds_met(),
        _ => return Err(USAGE.to_string()),
    };
    put(&output)?;
    Ok(true)
}

fn standard_input() -> Result<Vec<u8>, String> {
    let mut octets = Vec::new();
    io::stdin().read_to_end(&mut octets).map_err(|error| error.to_string())?;
    Ok(octets)
}

fn put(octets: &[u8]) -> Result<(), String> {
    io::stdout().write_all(octets).map_err(|error| error.to_string())
}

fn lines(lines: Vec<String>) -> Vec<u8> {
    let mut text = lines.join("\n").into_bytes();
    text.push(b'\n');
    text
}

/// What `answer` says to each line of standard input.
fn answers(mut answer: impl FnMut(&str) -> Result<String, String>) -> Result<Vec<String>, String> {
    let calls = io::stdin().lock().lines();
    calls.map(|call| answer(&call.map_err(|error| error.to_string())?)).collect()
}

fn reached() -> Result<bool, String> {
    let mut reach = reach::Reach::default();
    for line in io::stdin().lock().lines() {
        reach.add(&line.map_err(|error| error.to_string())?)?;
    }
    let (report, all) = reach.report();
    put(report.as_bytes())?;
    for call in &reach.accepted_flips {
        eprintln!("a flipped frame was accepted: {call}");
    }
    Ok(all && reach.accepted_flips.is_empty())
}

fn transitions_taken() -> Result<bool, String> {
    replay::Replay::default().answers(&standard_input()?);
    let (report, all) = transitions::report();
    put(report.as_bytes())?;
    Ok(all)
}

fn grounds_met() -> Result<bool, String> {
    let mut met = grounds::Met::default();
    for line in io::stdin().lock().lines() {
        met.add(&cases::Case::read(&line.map_err(|error| error.to_string())?)?);
    }
    let (report, all) = met.report();
    put(report.as_bytes())?;
    Ok(all)
}
