//! The shortest failing input that can be found by taking things away.

use crate::cases::IDENTITY;
use crate::explain::Question;
use crate::request::Wanted;
use crate::trace::{read_record, write_record, Record};

/// At most this many inputs are tried, so that shrinking ends in reasonable time.
const TRIES: usize = 4000;

/// Takes away ever smaller stretches of `items` as long as `fails` stays true.
pub fn shrink_list<T: Clone>(items: &[T], fails: &mut dyn FnMut(&[T]) -> bool) -> Vec<T> {
    let mut kept = items.to_vec();
    let mut stretch = kept.len().div_ceil(2).max(1);
    let mut tries = 0;
    loop {
        let mut at = 0;
        let mut shorter_found = false;
        while at < kept.len() && tries < TRIES {
            let end = (at + stretch).min(kept.len());
            let shorter = [&kept[..at], &kept[end..]].concat();
            tries += 1;
            if fails(&shorter) {
                kept = shorter;
                shorter_found = true;
            } else {
                at = end;
            }
        }
        if tries >= TRIES || (stretch == 1 && !shorter_found) {
            return kept;
        }
        stretch = (stretch / 2).max(1);
    }
}

/// Takes away records, then octets of the identities, frames and elements inside them, then buffer lengths.
pub fn shrink_trace(records: &[Vec<u8>], fails: &mut dyn FnMut(&[Vec<u8>]) -> bool) -> Vec<Vec<u8>> {
    let mut kept = shrink_list(records, fails);
    for index in 0..kept.len() {
        let Some((record, _)) = read_record(&kept[index]) else { continue };
        let mut still_fails = |candidate: &Record| {
            let mut trial = kept.clone();
            trial[index] = write_record(candidate);
            fails(&trial)
        };
        kept[index] = write_record(&shrink_record(record, &mut still_fails));
    }
    kept
}

/// A shorter record that still fails.
fn shrink_record(record: Record, fails: &mut dyn FnMut(&Record) -> bool) -> Record {
    match record {
        Record::Setup { identity, list } => {
            let with = |identity: &[u8]| Record::Setup { identity: identity.to_vec(), list: list.clone() };
            let simple = with(&IDENTITY);
            if fails(&simple) {
                return simple;
            }
            with(&shrink_list(&identity, &mut |fewer| fails(&with(fewer))))
        }
        Record::Frame { reading, destination, source, octets } => {
            let with =
                |octets: &[u8]| Record::Frame { reading, destination, source, octets: octets.to_vec() };
            with(&shrink_list(&octets, &mut |fewer| fails(&with(fewer))))
        }
        Record::Read { form, destination, octets } => {
            let with = |octets: &[u8]| Record::Read { form, destination, octets: octets.to_vec() };
            with(&shrink_list(&octets, &mut |fewer| fails(&with(fewer))))
        }
        Record::Report { reading, console, kind, buffer, fill } => {
            let with = |buffer: usize| Record::Report { reading, console, kind, buffer, fill };
            with(shorter_buffer(buffer, &mut |length| fails(&with(length))))
        }
        Record::Write { buffer, fill, kind, dialog, wanted } => {
            let with =
                |wanted: &[Wanted]| Record::Write { buffer, fill, kind, dialog, wanted: wanted.to_vec() };
            with(&shrink_list(&wanted, &mut |fewer| fails(&with(fewer))))
        }
        Record::Explain(Question { element, count, position }) => {
            let with = |element: &[u8], count, position| {
                Record::Explain(Question { element: element.to_vec(), count, position })
            };
            let element = shrink_list(&element, &mut |fewer| fails(&with(fewer, count, position)));
            let count = lower(count, &mut |count| fails(&with(&element, count, position)));
            let position = lower(position, &mut |position| fails(&with(&element, count, position)));
            with(&element, count, position)
        }
        other => other,
    }
}

/// The least of the numbers up to 64 below this one that still fails.
fn lower(number: u16, fails: &mut dyn FnMut(u16) -> bool) -> u16 {
    (0..number.min(65)).find(|less| fails(*less)).unwrap_or(number)
}

/// The first of a few lengths below this one that still fails.
fn shorter_buffer(buffer: usize, fails: &mut dyn FnMut(usize) -> bool) -> usize {
    let lengths = [0, 1, 259, 260, 261, 294, 295, 296, 330, 400, 600, 2303, 2304, 2305, 2308];
    lengths.into_iter().find(|length| *length < buffer && fails(*length)).unwrap_or(buffer)
}
