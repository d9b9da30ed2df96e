//! Damage to a frame: octets changed, cut off, put in or taken out.

use crate::random::Random;

/// Values that stand on the edges of what the readers test.
const EDGES: [u8; 26] =
    [0, 1, 2, 3, 4, 5, 6, 7, 8, 9, 10, 12, 13, 21, 33, 39, 47, 59, 60, 78, 79, 80, 81, 128, 254, 255];

/// The frame with one or more faults.
pub fn damage(random: &mut Random, frame: &[u8]) -> Vec<u8> {
    let mut octets = frame.to_vec();
    for _ in 0..random.pick(&[1, 1, 1, 2, 3]) {
        damage_once(random, &mut octets);
    }
    octets
}

/// One fault.
fn damage_once(random: &mut Random, octets: &mut Vec<u8>) {
    let at = if octets.is_empty() { 0 } else { random.between(0, octets.len() - 1) };
    match random.between(0, 9) {
        0 => octets.truncate(at),
        1 => octets.push(random.octet()),
        2 => octets.insert(at, random.pick(&EDGES)),
        3 if !octets.is_empty() => drop(octets.remove(at)),
        4 if !octets.is_empty() => octets[at] ^= 1 << random.between(0, 7),
        5 if !octets.is_empty() => octets[at] = octets[at].wrapping_add(random.pick(&[1, 255])),
        6 if octets.len() > 2 => {
            let early = random.between(0, 2);
            octets[early] = random.pick(&EDGES);
        }
        _ if !octets.is_empty() => octets[at] = random.pick(&EDGES),
        _ => octets.push(random.pick(&EDGES)),
    }
}

/// Octets with no plan, at times longer than a frame may be.
pub fn noise(random: &mut Random, header: [u8; 3]) -> Vec<u8> {
    let length = match random.between(0, 99) {
        0..=59 => random.between(0, 12),
        60..=94 => random.between(0, 60),
        95..=97 => random.between(300, 2300),
        _ => random.pick(&[2303, 2304, 2305, 2306, 3000]),
    };
    let mut octets = random.octets(length);
    if random.percent(70) {
        for (octet, value) in octets.iter_mut().zip(header) {
            *octet = value;
        }
    }
    if random.percent(50) {
        for octet in octets.iter_mut().skip(3) {
            if random.percent(60) {
                *octet = random.pick(&EDGES);
            }
        }
    }
    octets
}

/// An element or subelement: "ID, length, body".
pub fn part(id: u8, body: &[u8]) -> Vec<u8> {
    let mut octets = vec![id, body.len() as u8];
    octets.extend(body);
    octets
}
