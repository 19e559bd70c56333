//! Which cases of track descriptors are stored.

use common::layers;

use super::list::of_each_class;
use super::{Case, Operation};
use crate::descriptor::{self, Descriptor, around, descriptor};
use crate::numbers::{self, NUMBERS, Numbers};
use crate::run::name_of;

/// Each number; names around each limit; a descriptor that is cut off; and two of each class.
pub fn descriptors() -> Vec<Case> {
    let video = 1.0f64.to_bits();
    let mut payloads = NUMBERS.map(|number| descriptor(number, b"en")).to_vec();
    for length in [0, 1, 62, 63, 64, 65] {
        payloads.extend(around(descriptor(video, &vec![b'n'; length])));
    }
    payloads.push(descriptor(video, b"a\0b"));
    payloads.extend(layers::truncations(descriptor(video, b"fr")));
    payloads.extend(of_each_class::<Descriptor>(|payload| {
        (name_of(descriptor::class(payload)), payload.len())
    }));
    payloads.extend(of_each_class::<Numbers>(|payload| {
        (numbers::class(payload).0, payload.len())
    }));
    let case = |payload| Case::new(Operation::Descriptor, payload);
    payloads.into_iter().map(case).collect()
}
