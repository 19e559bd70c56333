//! Every string of a few bytes, or of a few others.

use std::iter;

/// Every string of 0 to 2 bytes.
pub fn up_to_two_bytes() -> impl Iterator<Item = Vec<u8>> {
    let one = (0..=u8::MAX).map(|byte| vec![byte]);
    let two = (0..=u16::MAX).map(|bytes| bytes.to_be_bytes().to_vec());
    iter::once(vec![]).chain(one).chain(two)
}

/// Every string of 3 bytes.
pub fn three_bytes() -> impl Iterator<Item = Vec<u8>> {
    (0..1u32 << 24).map(|bytes| bytes.to_be_bytes()[1..].to_vec())
}

/// Every string of none to `most` of the items, the shorter ones first.
pub fn up_to<T: Clone>(most: usize, items: Vec<T>) -> impl Iterator<Item = Vec<T>> {
    (0..=most as u32).flat_map(move |length| {
        let items = items.clone();
        let count = items.len().pow(length);
        (0..count).map(move |number| numbered(number, length, &items))
    })
}

/// The string of this number among those of a length. The digits of the number, to the base of how
/// many items there are, say which one stands in each place.
fn numbered<T: Clone>(number: usize, length: u32, items: &[T]) -> Vec<T> {
    let places = (0..length).rev();
    let item = |place| items[number / items.len().pow(place) % items.len()].clone();
    places.map(item).collect()
}

#[cfg(test)]
mod tests {
    use super::*;

    #[test]
    fn shorter_strings_come_first() {
        let strings: Vec<_> = up_to(2, vec!['a', 'b']).collect();
        let text = |string: &Vec<char>| string.iter().collect::<String>();
        let texts: Vec<String> = strings.iter().map(text).collect();
        assert_eq!(texts, ["", "a", "b", "aa", "ab", "ba", "bb"]);
        assert_eq!(up_to(3, (0..5).collect()).count(), 1 + 5 + 25 + 125);
    }
}
