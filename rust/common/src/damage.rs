//! Damage to bytes that mean something.

use crate::rng::Rng;

/// Cuts every other string, or changes, puts in or takes out a byte of it. It is not empty.
pub fn random_damage(rng: &mut Rng, bytes: &mut Vec<u8>) {
    if rng.one_in(2) {
        return;
    }
    let at = rng.below(bytes.len());
    match rng.below(6) {
        0 => bytes.truncate(at),
        1 => bytes[at] = bytes[at].wrapping_add(1),
        2 => bytes[at] = bytes[at].wrapping_sub(1),
        3 => bytes[at] = rng.byte(),
        4 => bytes.insert(at, rng.byte()),
        _ => drop(bytes.remove(at)),
    }
}
