//! What the reference answers to a script of the station's parts, a line for each call. Words are separated by one
//! space, numbers are decimal, octets upper-case hex, `-` is none. Calls on a row go to the row that the last `row`
//! laid out: its queue's numbers, its records' octets (13 a place) and how many octets of AA its data area has.
//! QUEUE is the first place in use and how many requests are confirmed and how many not. RECORD is SERVICE DA DSAP SSAP
//! LENGTH STATUS COUNT REFERENCE LIMIT ASKS. TIMES are TSM, Tid1, Tid2,
//! TSL, TTO and the waits before a reply, after an SDN and before others, each 0 when refused.
//!
//! | Call | Answers |
//! |---|---|
//! | `standard` | the standard settings: TSET TQUI MINTSDR MAXTSDR TTD TTR RETRIES TSDI |
//! | `settings TSET TQUI MINTSDR MAXTSDR TTD TTR RETRIES TSDI TS` | the refusal or 0, and TIMES |
//! | `left CLOCK ACCEPTANCE TTR` | 1 if time is left, else 0 |
//! | `ring TS MASTERS` | NS and PS, or 255 for each |
//! | `changes LAW TS LIST CHANGES` | the masters once the changes were made to the list of 127 octets, NS and PS |
//! | `row TS PLACES FIRST CONFIRMED UNCONFIRMED RECORDS AREA` | `row` |
//! | `submit SERVICE DA DSAP SSAP REFERENCE LIMIT ASKS DATA` | `ok PLACE QUEUE` or `refused N QUEUE` |
//! | `confirm STATUS COUNT DATA`, `drain COUNT` | `ok 0 QUEUE` or `refused N QUEUE` |
//! | `collect` | `handed PLACE RECORD DATA QUEUE` or `refused N QUEUE` |
//! | `sound` | the refusal of the queue or its unconfirmed records or 0, and QUEUE |
//! | `look`, `records` | the data area; the row |

use std::str::FromStr;

use crate::queue::Refusal;
use crate::ring::{Ring, ADDRESSES};
use crate::rows::{Layout, Record, Row};
use crate::text::{hex, optional, unhex};
use crate::times::{elapsed, Settings, STANDARD};

/// Answers call after call.
pub struct Parts {
    row: Row,
}

impl Default for Parts {
    /// No row is lent yet.
    fn default() -> Parts {
        let records = Vec::new();
        Parts {
            row: Row::new(Layout {
                own: 0,
                places: 0,
                first: 0,
                confirmed: 0,
                unconfirmed: 0,
                records,
                area: 0,
            }),
        }
    }
}

impl Parts {
    pub fn answer(&mut self, call: &str) -> Result<String, String> {
        let words: Vec<&str> = call.split(' ').collect();
        match words[..] {
            ["standard"] => Ok(say_settings(&STANDARD)),
            ["settings", tset, tqui, min_tsdr, max_tsdr, ttd, ttr, retry_limit, tsdi, address] => {
                let settings = Settings {
                    tset: number(tset)?,
                    tqui: number(tqui)?,
                    min_tsdr: number(min_tsdr)?,
                    max_tsdr: number(max_tsdr)?,
                    ttd: number(ttd)?,
                    ttr: number(ttr)?,
                    retry_limit: number(retry_limit)?,
                    tsdi: number(tsdi)?,
                };
                Ok(say_times(&settings, number(address)?))
            }
            ["left", clock, acceptance, ttr] => {
                let left = elapsed(number(acceptance)?, number(clock)?) < number(ttr)?;
                Ok(u8::from(left).to_string())
            }
            ["ring", address, masters] => {
                let masters = masters.split(',').map(number).collect::<Result<Vec<u8>, _>>()?;
                Ok(say_ring(number(address)?, &masters))
            }
            ["changes", _, address, list, changes] => say_changed(number(address)?, &unhex(list)?, changes),
            ["row", ref layout @ ..] => {
                self.row = Row::new(layout_of(layout)?);
                Ok("row".to_string())
            }
            ["look"] => Ok(hex(&self.row.area)),
            ["records"] => Ok(hex(&self.row.octets)),
            _ => self.answer_queue(&words, call),
        }
    }

    /// A call on the row: its answer ends with the queue.
    fn answer_queue(&mut self, words: &[&str], call: &str) -> Result<String, String> {
        let answer = match *words {
            ["submit", ref record @ .., data] => {
                let submitted = self.row.submit(record_of(record)?, &unhex(data)?);
                say(submitted.map(|place| format!("ok {place}")))
            }
            ["confirm", status, count, data] => {
                let confirmed = self.row.confirm(number(status)?, number(count)?, &unhex(data)?);
                say(confirmed.map(|()| "ok 0".to_string()))
            }
            ["drain", count] => say(self.row.drain(number(count)?).map(|()| "ok 0".to_string())),
            ["collect"] => say(self.row.collect().map(|(record, data)| say_record(&record, data))),
            ["sound"] => self.row.sound().map_or_else(|refusal| refusal.to_string(), |()| "0".to_string()),
            _ => return Err(format!("no call: {call}")),
        };
        let (first, confirmed, unconfirmed) = self.row.counts();
        Ok(format!("{answer} {first} {confirmed} {unconfirmed}"))
    }
}

fn number<N: FromStr>(word: &str) -> Result<N, String> {
    word.parse().map_err(|_| format!("no number for its place: {word}"))
}

fn point(word: &str) -> Result<Option<u8>, String> {
    match word {
        "-" => Ok(None),
        word => number(word).map(Some),
    }
}

/// What submit is given of a record. It asks by any number but 0.
fn record_of(words: &[&str]) -> Result<Record, String> {
    let &[service, destination, to, from, reference, limit, asks] = words else {
        return Err("no request".to_string());
    };
    Ok(Record {
        place: 0,
        service: number(service)?,
        destination: number(destination)?,
        to: point(to)?,
        from: point(from)?,
        length: 0,
        status: 0,
        count: 0,
        reference: number(reference)?,
        limit: number(limit)?,
        asks: number::<u8>(asks)? != 0,
    })
}

fn layout_of(words: &[&str]) -> Result<Layout, String> {
    let &[own, places, first, confirmed, unconfirmed, records, area] = words else {
        return Err("no row".to_string());
    };
    Ok(Layout {
        own: number(own)?,
        places: number(places)?,
        first: number(first)?,
        confirmed: number(confirmed)?,
        unconfirmed: number(unconfirmed)?,
        records: unhex(records)?,
        area: number(area)?,
    })
}

fn say_settings(settings: &Settings) -> String {
    let Settings { tset, tqui, min_tsdr, max_tsdr, ttd, ttr, retry_limit, tsdi } = settings;
    format!("{tset} {tqui} {min_tsdr} {max_tsdr} {ttd} {ttr} {retry_limit} {tsdi}")
}

fn say_times(settings: &Settings, address: u8) -> String {
    if !settings.in_rule() || address >= ADDRESSES {
        return "20 0 0 0 0 0 0 0 0".to_string();
    }
    let (tsm, tid1, tid2) = (settings.tsm(), settings.tid1(), settings.tid2());
    let (tsl, tto) = (settings.tsl(), settings.tto(address));
    format!("0 {tsm} {tid1} {tid2} {tsl} {tto} {} {tid2} {tid1}", settings.min_tsdr)
}

fn say_ring(address: u8, masters: &[u8]) -> String {
    if address >= ADDRESSES {
        return "255 255".to_string();
    }
    let ring = Ring::of(masters);
    format!("{} {}", ring.next(address), ring.previous(address))
}

/// CHANGES: `e5` enters 5 and `r7` removes 7, joined by commas, `-` for none. Addresses that no station has count for
/// nothing.
fn say_changed(address: u8, list: &[u8], changes: &str) -> Result<String, String> {
    let listed: Vec<u8> = (0..ADDRESSES).filter(|&place| list[usize::from(place)] == 1).collect();
    let mut ring = Ring::of(&listed);
    for change in changes.split(',').filter(|&change| change != "-") {
        let (kind, station) = change.split_at(1);
        let station: u8 = number(station)?;
        match kind {
            _ if station >= ADDRESSES => {}
            "e" => ring.enter(station),
            "r" => ring.leave(station),
            _ => return Err(format!("no change: {change}")),
        }
    }
    let masters: Vec<String> = ring.masters().iter().map(u8::to_string).collect();
    Ok(format!("{} {} {}", masters.join(","), ring.next(address), ring.previous(address)))
}

fn say(outcome: Result<String, Refusal>) -> String {
    outcome.unwrap_or_else(|refusal| format!("refused {refusal}"))
}

fn say_record(record: &Record, data: &[u8]) -> String {
    let Record { place, service, destination, length, status, count, reference, limit, .. } = record;
    let (to, from, asks) = (optional(record.to), optional(record.from), u8::from(record.asks));
    let request = format!("{service} {destination} {to} {from} {length} {status} {count}");
    format!("handed {place} {request} {reference} {limit} {asks} {}", hex(data))
}

#[cfg(test)]
mod tests {
    use super::*;

    fn answers(calls: &[&str]) -> Vec<String> {
        let mut parts = Parts::default();
        calls.iter().map(|call| parts.answer(call).unwrap()).collect()
    }

    /// The standard settings, with document 02's retry limit and TSDI; case 9 of document 01, then document 02's order 1:
    /// min TSDR 200, a TSDI over max TSDR, and one that TSL does not allow; case 10, and document 01's own example of a
    /// ring.
    #[test]
    fn document() {
        let calls = [
            "standard",
            "settings 20 0 20 400 1 10000 0 0 2",
            "settings 20 0 200 400 1 10000 0 0 2",
            "settings 20 0 20 400 1 10000 0 500 2",
            "settings 20 0 20 400 1 10000 0 65481 2",
            "left 1099 100 1000",
            "left 1100 100 1000",
            "ring 2 2,5",
        ];
        let expected = [
            "20 0 20 400 1 10000 0 0",
            "0 42 75 400 455 4550 20 400 75",
            "0 42 200 400 455 4550 200 400 200",
            "0 42 500 400 555 5550 20 400 500",
            "20 0 0 0 0 0 0 0 0",
            "1",
            "0",
            "5 5",
        ];
        assert_eq!(answers(&calls), expected);
    }

    #[test]
    fn a_row() {
        let calls = [
            "row 2 1 0 0 0 AAAAAAAAAAAAAAAAAAAAAAAAAA 246",
            "submit 12 7 60 62 258 16 1 0102",
            "submit 12 7 60 62 258 15 200 0102",
            "records",
            "submit 12 7 60 62 258 15 1 0102",
            "submit 12 7 60 62 258 16 1 0102",
            "sound",
            "confirm 9 1 -",
            "records",
            "collect",
            "collect",
            "row 2 1 0 1 0 AAAAAAAAAAAAAAAAAAAAAAAAAA 245",
            "collect",
            "row 2 1 0 1 0 AAAAAAAAAAAAAA 246",
            "collect",
            "row 2 1 0 1 0 0C073C3E040405000000000000 246",
            "collect",
        ];
        let expected = [
            "row",
            "refused 30 0 0 0",
            "ok 0 0 0 1",
            "0C073C3E02FF00020100000F01",
            "refused 27 0 0 1",
            "refused 30 0 0 1",
            "0 0 0 1",
            "ok 0 0 1 0",
            "0C073C3E000901020100000F01",
            "handed 0 12 7 60 62 0 9 1 258 15 1 - 0 0 0",
            "refused 28 0 0 0",
            "row",
            "refused 21 0 1 0",
            "row",
            "refused 21 0 1 0",
            "row",
            "refused 29 0 1 0",
        ];
        assert_eq!(answers(&calls), expected);
    }

    /// A limit over 15 and the flag 7 in a record: 29, but a confirmation keeps the one and writes the other as 1.
    #[test]
    fn a_forged_record() {
        let calls = [
            "row 2 1 0 0 1 0C073C3E04FF05FFFFFFFF1007 246",
            "sound",
            "records",
            "confirm 16 3 -",
            "records",
            "collect",
        ];
        let expected = [
            "row",
            "29 0 0 1",
            "0C073C3E04FF05FFFFFFFF1007",
            "ok 0 0 1 0",
            "0C073C3E001003FFFFFFFF1001",
            "handed 0 12 7 60 62 0 16 3 4294967295 16 1 - 0 0 0",
        ];
        assert_eq!(answers(&calls), expected);
    }
}
