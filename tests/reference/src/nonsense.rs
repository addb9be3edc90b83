//! Lines that are no call of the replay script, and lawful ones written oddly.

use crate::random::Random;

/// Each of these prints `?`, whatever the station.
const NO_CALLS: &[&str] = &[
    " ",
    "   ",
    " # a comment begins with its first character",
    "\t",
    "\r",
    "stop",
    "Show",
    "show now",
    "show\r",
    "show\t",
    "\tshow",
    "reset 1",
    "collect",
    "collect high low",
    "collect High",
    "collect highest",
    "collect 0",
    "sent",
    "sent 4294967296",
    "sent 99999999999999999999999999",
    "sent -1",
    "sent +1",
    "sent 0x10",
    "sent 1.5",
    "sent 1 2",
    "sent -",
    "slot",
    "slot a",
    "slot 4294967296",
    "slot \u{661}",
    "frame 1 0 - -",
    "frame 1 0 - - - -",
    "frame 1 2 - - -",
    "frame 1 - - - -",
    "frame 1 yes - - -",
    "frame x 0 - - -",
    "frame 4294967296 0 - - -",
    "frame 1 0 A - -",
    "frame 1 0 - ABC -",
    "frame 1 0 - - D",
    "frame 1 0 - - DC020",
    "frame 1 0 - - DCG205",
    "frame 1 0 - - DC 02 05",
    "frame 1 0 - - --",
    "frame 1 0 - - 0xDC0205",
    "frame 1 0 - - DC\u{e9}2",
    "submit high srd 7 - -",
    "submit high srd 7 - - - -",
    "submit mid srd 7 - - -",
    "submit high SRD 7 - - -",
    "submit high read 7 - - -",
    "submit high srd 256 - - -",
    "submit high srd - - - -",
    "submit high srd 7 256 - -",
    "submit high srd 7 none - -",
    "submit high srd 7 - 300 -",
    "submit high srd 7 - - 1",
    "submit high srd 7 - - xy",
    "start",
    "start 20 0 20 400 1 10000 1 2 2,5 none 4",
    "start 20 0 20 400 1 10000 1 2 2,5 none 4 4 4",
    "start 4294967296 0 20 400 1 10000 1 2 2,5 none 4 4",
    "start 20 0 20 400 1 10000 1 4294967296 2,5 none 4 4",
    "start 20 0 20 400 1 10000 1 2 2,127 none 4 4",
    "start 20 0 20 400 1 10000 1 2 2,,5 none 4 4",
    "start 20 0 20 400 1 10000 1 2 2,5, none 4 4",
    "start 20 0 20 400 1 10000 1 2 ,2 none 4 4",
    "start 20 0 20 400 1 10000 1 2 2,- none 4 4",
    "start 20 0 20 400 1 10000 1 2 none none 4 4",
    "start 20 0 20 400 1 10000 1 2 2,5 63 4 4",
    "start 20 0 20 400 1 10000 1 2 2,5 -,1 4 4",
    "start 20 0 20 400 1 10000 1 2 2,5 None 4 4",
    "start 20 0 20 400 1 10000 1 2 2,5 1,,2 4 4",
    "start 20 0 20 400 1 10000 1 2 2,5 none 256 4",
    "start 20 0 20 400 1 10000 1 2 2,5 none 4 256",
    "start 20 0 20 400 1 10000 1 2 2,5 none - 4",
    "start 20 0 20 400 1 10000 1 2 2,5 none 4 tsdi 5",
    "start 20 0 20 400 1 10000 1 2 2,5 none 4 4 tsdi",
    "start 20 0 20 400 1 10000 1 2 2,5 none 4 4 tsdi -",
    "start 20 0 20 400 1 10000 1 2 2,5 none 4 4 tsdi 4294967296",
    "start 20 0 20 400 1 10000 1 2 2,5 none 4 4 tsdi 5 5",
    "start 20 0 20 400 1 10000 1 2 2,5 none 4 4 tsdi 5 tsdi",
    "start 20 0 20 400 1 10000 1 2 2,5 none 4 4 tsdi 5 tsdi 5",
    "start 20 0 20 400 1 10000 1 2 2,5 none 4 4 5 tsdi",
    "start 20 0 20 400 1 10000 1 2 2,5 none 4 4 TSDI 5",
    "start 20 0 20 400 1 10000 1 2 2,5 none 4 4 tsd 5",
    "start 20 0 20 400 1 10000 1 2 2,5 none 4 4 tsdi5 5",
    "start 20 0 20 400 1 10000 1 2 2,5 none 4 4 gap 10",
    "start 20 0 20 400 1 10000 1 2 2,5 none 4 4 tsdi 5 hsa 126",
    "start 20 0 20 400 1 10000 1 2 2,5 none 4 4 edition 0 tsdi 5",
    "start 20 0 20 400 1 10000 1 2 2,5 none 4 4 ref 1",
    "start 20 0 20 400 1 10000 1 2 2,5 none 4 4 limit 1",
    "start 20 0 20 400 1 10000 1 2 2,5 none 4 4 tsdi 5 ref 1",
    "submit high srd 7 - - - tsdi 5",
    "submit high srd 7 - - - ref 1 tsdi 5",
    "submit high srd 7 - - ref 1",
    "submit high srd 7 - - limit 1 -",
    "submit high ref 1 srd 7 - - -",
    "submit high srd 7 - - - ref",
    "submit high srd 7 - - - limit",
    "submit high srd 7 - - - ref limit 1",
    "submit high srd 7 - - - ref 1 limit",
    "submit high srd 7 - - - ref 1 1",
    "submit high srd 7 - - - 1 ref",
    "submit high srd 7 - - - limit 1 ref 1",
    "submit high srd 7 - - - ref 1 ref 1",
    "submit high srd 7 - - - limit 1 limit 1",
    "submit high srd 7 - - - ref 1 limit 1 limit 1",
    "submit high srd 7 - - - ref 1 limit 1 ref 1",
    "submit high srd 7 - - - ref 1 limit 1 1",
    "submit high srd 7 - - - ref -",
    "submit high srd 7 - - - ref -1",
    "submit high srd 7 - - - ref +1",
    "submit high srd 7 - - - ref 0x1",
    "submit high srd 7 - - - ref 4294967296",
    "submit high srd 7 - - - ref 18446744073709551617",
    "submit high srd 7 - - - limit -",
    "submit high srd 7 - - - limit 256",
    "submit high srd 7 - - - limit 4294967296",
    "submit high srd 7 - - - limit 4294967297",
    "submit high srd 7 - - - ref 1 limit 256",
    "submit high srd 7 - - - ref 4294967296 limit 1",
    "submit high srd 7 - - - Ref 1",
    "submit high srd 7 - - - LIMIT 1",
    "submit high srd 7 - - - reference 1",
    "submit high srd 7 - - - limits 1",
    "submit high srd 7 - - - ref1 1",
    "submit high srd 7 - - - asks 1",
    "submit high srd 7 - - - ref 1 retry 1",
    "collect high ref 1",
    "collect high limit 1",
    "reset ref 1",
    "slot 1 ref 1",
    "sent 1 limit 1",
    "frame 1 0 - - - ref 1",
    "show ref 1",
    "show tsdi 5",
    "sent 1 tsdi 5",
];

/// A line that prints `?`, or one that prints nothing.
pub fn line(random: &mut Random) -> String {
    let tail = random.below(20);
    match random.below(12) {
        0 => String::new(),
        1 => "# show".to_string(),
        2 => format!("#{}", " 0".repeat(2040 + tail)),
        // Just over and at the longest line: frames of zeros that the reader refuses.
        3 => format!("frame 1 0 - - {}", "0".repeat(4083 + tail)),
        4 => format!("show{}", " ".repeat(4093 + tail)),
        _ => random.pick(NO_CALLS).to_string(),
    }
}

/// The same call in other characters: more spaces, lower-case hex, numbers with leading zeros, a longest line.
pub fn rewritten(random: &mut Random, line: &str) -> String {
    match random.below(6) {
        0 => line.replace(' ', "  "),
        1 => format!(" {line}   "),
        2 => line.to_lowercase(),
        3 if line.len() < 4096 => format!("{line}{}", " ".repeat(4096 - line.len())),
        4 => line.replace(" ref ", " ref 000000000000").replace(" limit ", " limit 000000000000"),
        _ => match line.split_once(' ') {
            Some((word @ ("frame" | "sent" | "slot"), rest)) => format!("{word} 000000000000{rest}"),
            _ => line.to_string(),
        },
    }
}

#[cfg(test)]
mod tests {
    use super::*;
    use crate::replay::Replay;

    #[test]
    fn none_of_them_is_a_call() {
        let mut replay = Replay::default();
        assert_eq!(replay.answers(b"start 20 0 20 400 1 10000 1 2 2,5 none 4 4\n"), "ok\n");
        for line in NO_CALLS {
            assert_eq!(replay.answer(line.as_bytes()).as_deref(), Some("?"), "{line}");
        }
    }
}
