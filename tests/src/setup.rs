//! What setup is held to: the list of requesters and the identity.

use crate::form::{Console, Form};
use crate::octets::{is_group, part_at, Address};

/// "Console list empty, over 4, repeated, or with a group address", or with "a form number other than 0 or 1": 15.
pub fn list_is_good(list: &[Console]) -> bool {
    let addresses: Vec<Address> = list.iter().map(|console| console.address).collect();
    addresses_are_good(&addresses) && list.iter().all(|console| Form::of(console.form).is_some())
}

/// A list but for its forms: ""Repeated" in a console list goes by the address alone."
pub fn addresses_are_good(list: &[Address]) -> bool {
    let mut sorted = list.to_vec();
    sorted.sort_unstable();
    sorted.dedup();
    (1..=4).contains(&list.len()) && sorted.len() == list.len() && !list.iter().any(is_group)
}

/// "in the order 13, 11, 12, 14, 9, 4, 3, 6, 7, 21".
const ORDER: [u8; 10] = [13, 11, 12, 14, 9, 4, 3, 6, 7, 21];

/// "The identity is a subelement list of at most 252 octets in the order ...; the first five must
/// stand, the rest may; none twice."
pub fn identity_is_good(identity: &[u8]) -> bool {
    identity.len() <= 252 && holds(identity, 0, &ORDER)
}

/// From `at` on, only the IDs in `order` may stand, in that order. The first five of all must.
fn holds(identity: &[u8], at: usize, order: &[u8]) -> bool {
    let must_stand = order.len() > 5;
    if at == identity.len() {
        return !must_stand;
    }
    let (Some(part), Some(expected)) = (part_at(identity, at), order.first()) else {
        return false;
    };
    if part.id == *expected {
        return length_is_good(part.id, part.body.len()) && holds(identity, part.next, &order[1..]);
    }
    !must_stand && holds(identity, at, &order[1..])
}

/// "Body lengths: 13 has 3; 3, 6, 7 have 1; the others 1 to 249".
fn length_is_good(id: u8, length: usize) -> bool {
    match id {
        13 => length == 3,
        3 | 6 | 7 => length == 1,
        _ => (1..=249).contains(&length),
    }
}
