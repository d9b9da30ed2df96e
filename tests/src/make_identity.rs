//! Made-up identities and lists of requesters.

use crate::damage::{damage, part};
use crate::form::Console;
use crate::octets::Address;
use crate::random::Random;

/// The station's own address.
pub const STATION: Address = [2, 0, 0, 0, 0, 9];

/// An identity; `wrong` times in a hundred damaged or made wrong in another way.
pub fn identity(random: &mut Random, wrong: usize) -> Vec<u8> {
    let mut parts = vec![part(13, &random.octets(3))];
    let full = random.percent(25);
    for id in [11, 12, 14, 9] {
        let length = random.between(1, 12);
        parts.push(part(id, &random.octets(length)));
    }
    for (id, longest) in [(4, 9), (3, 1), (6, 1), (7, 1), (21, 9)] {
        if random.percent(30) {
            let length = random.between(1, longest);
            parts.push(part(id, &random.octets(length)));
        }
    }
    if full {
        let used: usize = parts.iter().map(Vec::len).sum();
        let most = if random.percent(wrong) { 253 } else { 252 };
        let length = usize::from(parts[1][1]) + most - used;
        parts[1] = part(11, &random.octets(length));
    }
    if !random.percent(wrong) {
        return parts.concat();
    }
    let at = random.between(0, parts.len() - 1);
    let other = random.between(0, parts.len() - 1);
    match random.between(0, 5) {
        0 => parts.swap(at, other),
        1 => parts.insert(at, parts[other].clone()),
        2 => drop(parts.remove(at)),
        3 => parts[at] = part(random.pick(&[0, 5, 8, 10, 20, 22]), &[1]),
        4 => parts[at] = part(parts[at][0], &random.pick(&[vec![], vec![1, 2], vec![1, 2, 3, 4]])),
        _ => return damage(random, &parts.concat()),
    }
    parts.concat()
}

/// A number that is no form.
pub fn bad_form(random: &mut Random) -> u8 {
    random.pick(&[2, 2, 3, 128, 129, 254, 255])
}

/// A list: one to four of five addresses, of one form or of both; at times empty, too long, repeated, with a group
/// address, or with a number that is no form.
pub fn console_list(random: &mut Random) -> Vec<Console> {
    let first = random.between(0, 4);
    let forms = random.pick(&[[0, 0], [1, 1], [0, 1], [0, 1], [0, 1]]);
    let mut console = |number: usize| {
        let address = [2, 0, 0, 0, 0, 1 + ((first + number) % 5) as u8];
        Console { address, form: random.pick(&forms) }
    };
    let six: Vec<Console> = (0..6).map(&mut console).collect();
    let mut list = six[..random.between(1, 4)].to_vec();
    if !random.percent(13) {
        return list;
    }
    let at = random.between(0, list.len() - 1);
    match random.between(0, 5) {
        0 => list.clear(),
        1 => list = six[..random.between(5, 6)].to_vec(),
        2 => list.push(Console { form: random.pick(&[0, 1]), ..list[at] }),
        3 => list[at].address[0] = 3,
        _ => list[at].form = bad_form(random),
    }
    list
}
