//! "Order between consoles" (document 02, (j)), seen from outside: the program compared with itself.
//!
//! Neighbouring frames of different sources are brought to one reading, and each such pair is exchanged. Every
//! answer and every lent buffer is then the same, those of a pair in the other order.

use crate::answers::answers;
use crate::compare::{records_text, Difference};
use crate::program::Programs;
use crate::shrink::shrink_trace;
use crate::tally::Tally;
use crate::trace::{read_record, write_record, Record};

/// Records of which some neighbours are frames of different sources at one reading.
struct Paired {
    records: Vec<Vec<u8>>,
    /// Where the first of each pair stands.
    pairs: Vec<usize>,
}

/// Compares the answers of a trace with those of the trace in which each pair is exchanged.
pub fn check_exchange(programs: &Programs, tally: &Tally, records: &[Vec<u8>]) -> Result<(), Difference> {
    let paired = pair(records);
    let Err(_) = compare_exchanged(programs, &paired) else {
        tally.count_exchanged(paired.pairs.len());
        return Ok(());
    };
    let shortest = shrink_trace(records, &mut |fewer| compare_exchanged(programs, &pair(fewer)).is_err());
    let paired = pair(&shortest);
    let Err((expected, printed)) = compare_exchanged(programs, &paired) else {
        unreachable!("the shortened trace fails like the whole one");
    };
    Err(Difference {
        title: format!(
            "order between consoles: expected is the answer before frames of one reading were exchanged, printed \
             that behind it; the records:\n{}",
            records_text(&paired.records)
        ),
        input: paired.records.concat(),
        expected: expected.into_bytes(),
        printed: printed.into_bytes(),
    })
}

/// The records that are whole, each second frame of a pair at the reading of the first.
fn pair(records: &[Vec<u8>]) -> Paired {
    let mut whole: Vec<Record> =
        records.iter().map_while(|octets| read_record(octets)).map(|(record, _)| record).collect();
    let mut pairs = Vec::new();
    for second in 1..whole.len() {
        let first = second - 1;
        let Record::Frame { reading: at, source: one, .. } = whole[first] else { continue };
        let Record::Frame { reading, source: other, .. } = &mut whole[second] else { continue };
        if one == *other || pairs.last().is_some_and(|last| last + 1 == first) {
            continue;
        }
        *reading = at;
        pairs.push(first);
    }
    Paired { records: whole.iter().map(write_record).collect(), pairs }
}

/// The comparison itself; an error has the answer before the exchange, and that behind it.
fn compare_exchanged(programs: &Programs, paired: &Paired) -> Result<(), (String, String)> {
    let mut exchanged = paired.records.clone();
    paired.pairs.iter().for_each(|first| exchanged.swap(*first, first + 1));
    let mut places: Vec<usize> = (0..exchanged.len()).collect();
    paired.pairs.iter().for_each(|first| places.swap(*first, first + 1));
    let before = programs.run("replay", &paired.records.concat());
    let behind = programs.run("replay", &exchanged.concat());
    let (before, behind) = (String::from_utf8_lossy(&before), String::from_utf8_lossy(&behind));
    let (before, behind) = (answers(&paired.records, &before), answers(&exchanged, &behind));
    for (index, (_, expected)) in before.iter().enumerate() {
        let printed = behind.get(places[index]).map_or("", |(_, answer)| answer);
        if *expected != printed {
            return Err((expected.to_string(), printed.to_string()));
        }
    }
    Ok(())
}
