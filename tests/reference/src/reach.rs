//! What a script reached: how often each form and each refusal came up, told from calls and answers.

use std::collections::BTreeMap;
use std::ops::RangeInclusive;

const FORMS_READ: &[&str] = &["SD1", "SD2", "SD3", "token", "short"];
const REFUSED_READ: RangeInclusive<u8> = 1..=11;
/// The writer never uses SD3.
const FORMS_WRITTEN: &[&str] = &["SD1", "SD2", "token", "short"];
const REFUSED_WRITTEN: RangeInclusive<u8> = 8..=13;

/// Counts outcomes, by whether a call read or wrote.
#[derive(Default)]
pub struct Reach {
    read: BTreeMap<String, usize>,
    written: BTreeMap<String, usize>,
    flips: usize,
    pub accepted_flips: Vec<String>,
}

impl Reach {
    /// Takes in one line: a call, a tab and its answer.
    pub fn add(&mut self, line: &str) -> Result<(), String> {
        let (call, answer) = line.split_once('\t').ok_or(format!("no tab: {line}"))?;
        let (word, operands) = call.split_once(' ').ok_or(format!("no call: {call}"))?;
        match word {
            "read" => count(&mut self.read, outcome(answer, operands)),
            "flip" if answer.starts_with("refused") => self.flips += 1,
            "flip" => self.accepted_flips.push(call.to_string()),
            _ => count(&mut self.written, outcome(answer, last_word(answer))),
        }
        Ok(())
    }

    /// The counts in words, and whether each outcome was reached.
    pub fn report(&self) -> (String, bool) {
        let (read, read_all) = table(FORMS_READ, REFUSED_READ, &self.read);
        let (written, written_all) = table(FORMS_WRITTEN, REFUSED_WRITTEN, &self.written);
        let text = format!("read: {read}\nwritten: {written}\nflipped and refused: {}\n", self.flips);
        (text, read_all && written_all && self.flips > 0)
    }
}

fn count(counts: &mut BTreeMap<String, usize>, outcome: String) {
    *counts.entry(outcome).or_default() += 1;
}

/// The counts of the outcomes named, in words, and whether none of them is 0.
fn table(forms: &[&str], refusals: RangeInclusive<u8>, counts: &BTreeMap<String, usize>) -> (String, bool) {
    let forms = forms.iter().map(|form| form.to_string());
    let outcomes: Vec<_> = forms.chain(refusals.map(|number| format!("refused {number}"))).collect();
    let words: Vec<_> =
        outcomes.iter().map(|name| format!("{name}: {}", counts.get(name).unwrap_or(&0))).collect();
    (words.join(", "), outcomes.iter().all(|name| counts.contains_key(name)))
}

fn last_word(answer: &str) -> &str {
    answer.rsplit(' ').next().unwrap_or("")
}

/// The refusal that an answer names, or the form of the octets that were accepted.
fn outcome(answer: &str, octets: &str) -> String {
    let words: Vec<&str> = answer.split(' ').collect();
    match words[..] {
        ["refused", number, ..] => format!("refused {number}"),
        _ => form_of(octets).to_string(),
    }
}

fn form_of(octets: &str) -> &'static str {
    match octets.get(..2) {
        Some("10") => "SD1",
        Some("68") => "SD2",
        Some("A2") => "SD3",
        Some("DC") => "token",
        Some("E5") => "short",
        _ => "no form",
    }
}
