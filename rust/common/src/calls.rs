//! Calls of the writers, good ones and others: the inputs of their comparisons and tests.

use crate::rng::Rng;
use crate::writing::{
    AUDIO, ContainerArguments, MANY_TRACKS, METADATA, MOST_DATA, MOST_LAYERS, MOST_TRACKS,
    ModexArguments, ONE_TRACK, Parts, SCRIPT, SHORT_SIZE, VIDEO,
};

/// A change to a call, after which most are refused.
pub type Change<A> = Box<dyn Fn(&mut A)>;

/// What tracks have that share a FourCC.
const FOURCC: u32 = u32::from_be_bytes(*b"Opus");

/// Numbers that are refused, also where their low bits would not be.
const FRAME_TYPES: &[u32] = &[4, 255, 256, 257, u32::MAX];
const FORMS: &[u32] = &[3, 16, 17, 18, 256, 257, u32::MAX];
const PACKET_TYPES: &[u32] = &[16, 17, 256, 257, u32::MAX];
const VIDEO_FRAME_TYPES: &[u32] = &[5, 8, 9, 13, 21, 256, 257, u32::MAX];
const MODEX_TYPES: &[u8] = &[16, 17, 32, 255];

/// The packet types of audio and of video containers: each is refused in its own kind.
const OWN_PACKET_TYPES: &[u32] = &[5, 6];

/// How many data bytes a layer has that is added.
const DATA: &[usize] = &[0, SHORT_SIZE, SHORT_SIZE + 1, MOST_DATA + 1];

/// A start and a length, by how many bytes are lent.
type Place = fn(usize) -> (usize, usize);

/// At the end of what is lent, and past it.
const PLACES: &[Place] = &[
    |lent| (lent, 0),
    |lent| (lent, 1),
    |lent| (lent + 1, 0),
    |lent| (0, lent + 1),
    |_| (usize::MAX, 0),
    |_| (usize::MAX, 1),
    |_| (usize::MAX, 2),
    |_| (1 << 63, 1 << 63),
    |_| (2, usize::MAX - 1),
    |_| (0, usize::MAX),
    |_| (1, 1 << 32),
];

/// Writes bodies of these lengths, with one FourCC.
pub fn container(frame_type: u32, form: u32, lengths: &[usize]) -> ContainerArguments {
    let mut call = ContainerArguments {
        frame_type,
        video_frame_type: 1,
        form,
        packet_type: 1,
        ..ContainerArguments::default()
    };
    for (number, &length) in lengths.iter().enumerate() {
        add_track(&mut call, &counted(number, length));
    }
    call
}

/// Writes layers with so many data bytes, of type 1, 2 and so on, around the payload.
pub fn modex(frame_type: u32, lengths: &[usize], payload: &[u8]) -> ModexArguments {
    let mut call = ModexArguments {
        frame_type,
        payload: payload.to_vec(),
        ..ModexArguments::default()
    };
    for (number, &length) in lengths.iter().enumerate() {
        add_layer(&mut call, &counted(number, length));
    }
    call
}

/// Bytes that tell parts, and places in a part, from one another.
fn counted(number: usize, length: usize) -> Vec<u8> {
    let byte = |at| (at + 16 * number) as u8 ^ 0xA1;
    (0..length).map(byte).collect()
}

fn add_track(call: &mut ContainerArguments, body: &[u8]) {
    call.count = call.count.saturating_add(1);
    call.ids.push(call.count as u8);
    call.fourccs.push(FOURCC);
    call.bodies.push(body);
}

fn add_layer(call: &mut ModexArguments, data: &[u8]) {
    call.count = call.count.saturating_add(1);
    call.types.push(call.count as u8 & 0x0F);
    call.data.push(data);
}

/// Each number, column and part of a container, changed.
pub fn container_changes() -> Vec<Change<ContainerArguments>> {
    let mut changes: Vec<Change<ContainerArguments>> = vec![
        Box::new(|call| add_track(call, &[0xBB])),
        Box::new(|call| (call.count..MOST_TRACKS).for_each(|_| add_track(call, &[]))),
        Box::new(|call| (call.count..=MOST_TRACKS).for_each(|_| add_track(call, &[]))),
        Box::new(|call| shorten(&mut call.ids)),
        Box::new(|call| shorten(&mut call.fourccs)),
        Box::new(|call| call.fourccs.truncate(1)),
        Box::new(|call| call.fourccs.fill(0)),
        Box::new(|call| call.form = ONE_TRACK),
        Box::new(|call| change_first(&mut call.fourccs, |fourcc| fourcc ^ 1)),
        Box::new(|call| change_last(&mut call.fourccs, |fourcc| fourcc ^ 1 << 31)),
        Box::new(lengthen_track_columns),
    ];
    let add = &mut changes;
    add_each(add, &[SCRIPT, METADATA], |call, number| {
        call.frame_type = number
    });
    add_each(add, FRAME_TYPES, |call, number| call.frame_type = number);
    add_each(add, FORMS, |call, number| call.form = number);
    add_each(add, PACKET_TYPES, |call, number| call.packet_type = number);
    add_each(add, OWN_PACKET_TYPES, |call, number| {
        call.packet_type = number
    });
    add_each(add, VIDEO_FRAME_TYPES, |call, number| {
        call.video_frame_type = number
    });
    add_counts(add, |call| &mut call.count);
    add_parts(add, |call| &mut call.bodies);
    changes
}

/// Each number, column and part of layers, and the payload's byte 0, changed.
pub fn modex_changes() -> Vec<Change<ModexArguments>> {
    let mut changes: Vec<Change<ModexArguments>> = vec![
        Box::new(|call| (call.count..MOST_LAYERS).for_each(|_| add_layer(call, &[0xBB]))),
        Box::new(|call| (call.count..=MOST_LAYERS).for_each(|_| add_layer(call, &[0xBB]))),
        Box::new(|call| shorten(&mut call.types)),
        Box::new(|call| call.payload.clear()),
        Box::new(|call| change_first(&mut call.payload, |first| first & 0x7F)),
        Box::new(|call| change_first(&mut call.payload, |first| first | 0x07)),
        Box::new(|call| change_first(&mut call.payload, |first| first ^ 0x20)),
        Box::new(lengthen_layer_columns),
    ];
    let add = &mut changes;
    add_each(add, FRAME_TYPES, |call, number| call.frame_type = number);
    add_each(add, MODEX_TYPES, |call, number| {
        change_last(&mut call.types, |_| number)
    });
    add_each(add, DATA, |call, length| {
        add_layer(call, &counted(1, length))
    });
    add_counts(add, |call| &mut call.count);
    add_parts(add, |call| &mut call.data);
    changes
}

/// A change for each of the numbers.
fn add_each<A: 'static, N: Copy>(
    changes: &mut Vec<Change<A>>,
    numbers: &'static [N],
    change: fn(&mut A, N),
) {
    for &number in numbers {
        changes.push(Box::new(move |call| change(call, number)));
    }
}

/// Changes to the number of tracks or layers.
fn add_counts<A: 'static>(changes: &mut Vec<Change<A>>, count: fn(&mut A) -> &mut usize) {
    changes.push(Box::new(move |call| *count(call) = 0));
    changes.push(Box::new(move |call| *count(call) = usize::MAX));
    changes.push(Box::new(move |call| {
        let count = count(call);
        *count = count.saturating_add(1);
    }));
}

/// Changes to the columns of the parts, and to the places of the first and of the last one.
fn add_parts<A: 'static>(changes: &mut Vec<Change<A>>, parts: fn(&mut A) -> &mut Parts) {
    changes.push(Box::new(move |call| shorten(&mut parts(call).starts)));
    changes.push(Box::new(move |call| shorten(&mut parts(call).lengths)));
    for place in PLACES {
        changes.push(Box::new(move |call| {
            let parts = parts(call);
            let (start, length) = place(parts.lent.len());
            change_first(&mut parts.starts, |_| start);
            change_first(&mut parts.lengths, |_| length);
        }));
        changes.push(Box::new(move |call| {
            let parts = parts(call);
            let (start, length) = place(parts.lent.len());
            change_last(&mut parts.starts, |_| start);
            change_last(&mut parts.lengths, |_| length);
        }));
    }
}

fn change_first<T: Copy>(values: &mut [T], change: impl Fn(T) -> T) {
    if let Some(first) = values.first_mut() {
        *first = change(*first);
    }
}

fn change_last<T: Copy>(values: &mut [T], change: impl Fn(T) -> T) {
    if let Some(last) = values.last_mut() {
        *last = change(*last);
    }
}

fn shorten<T>(column: &mut Vec<T>) {
    column.pop();
}

/// Entries behind those of the tracks that would be refused.
fn lengthen_track_columns(call: &mut ContainerArguments) {
    call.ids.push(0xFF);
    call.fourccs.push(!FOURCC);
    lengthen(&mut call.bodies);
}

/// Entries behind those of the layers that would be refused.
fn lengthen_layer_columns(call: &mut ModexArguments) {
    call.types.push(0xFF);
    lengthen(&mut call.data);
}

fn lengthen(parts: &mut Parts) {
    parts.starts.push(usize::MAX);
    parts.lengths.push(usize::MAX);
}

/// Mostly of a few tracks with short bodies.
pub fn random_container(rng: &mut Rng) -> ContainerArguments {
    let form = rng.below(3) as u32;
    let count = match rng.below(2_000) {
        _ if form == ONE_TRACK => 1,
        0 => MOST_TRACKS - 1 + rng.below(3),
        1..20 => 1 + rng.below(300),
        _ => 1 + rng.below(6),
    };
    let mut call = ContainerArguments {
        frame_type: *rng.pick(&[AUDIO, VIDEO]),
        video_frame_type: *rng.pick(&[0, 1, 2, 3, 4, 6, 7]),
        form,
        packet_type: rng.below(16) as u32,
        count,
        ids: rng.bytes(count),
        fourccs: vec![FOURCC; count],
        bodies: random_parts(rng, count, 0),
    };
    if form != MANY_TRACKS {
        call.fourccs.fill_with(|| rng.number() as u32);
    }
    change_randomly(rng, &mut call, container_changes);
    call
}

/// Mostly of a few layers with little data.
pub fn random_modex(rng: &mut Rng) -> ModexArguments {
    let frame_type = rng.below(4) as u32;
    let count = match rng.below(16) {
        0 => MOST_LAYERS - 1 + rng.below(3),
        1 => 1 + rng.below(MOST_LAYERS),
        _ => 1 + rng.below(4),
    };
    let length = rng.below(40);
    let mut payload = rng.bytes(1 + length);
    payload[0] = match frame_type {
        AUDIO => 0x90,
        _ => payload[0] & 0x70 | 0x80,
    } | *rng.pick(&[0, 1, 2, 3, 4, 5, 6, 8, 15]);
    let mut call = ModexArguments {
        frame_type,
        count,
        types: rng.bytes(count).iter().map(|byte| byte & 0x0F).collect(),
        data: random_parts(rng, count, 1),
        payload,
    };
    change_randomly(rng, &mut call, modex_changes);
    call
}

/// Anywhere in what is lent, so that they overlap; none shorter than `least`.
fn random_parts(rng: &mut Rng, count: usize, least: usize) -> Parts {
    let most = match rng.below(2_000) {
        0 if count < 8 => 65_530 + rng.below(10),
        1..60 if count < 8 => 250 + rng.below(12),
        _ => rng.below(6),
    };
    let length = least + most + rng.below(8);
    let mut parts = Parts {
        lent: rng.bytes(length),
        ..Parts::default()
    };
    for _ in 0..count {
        let more = if rng.one_in(4) {
            most
        } else {
            rng.below(most + 1)
        };
        let length = least + more;
        parts.starts.push(rng.below(parts.lent.len() - length + 1));
        parts.lengths.push(length);
    }
    parts
}

/// One change to every third call, two to every sixth.
fn change_randomly<A>(rng: &mut Rng, call: &mut A, changes: fn() -> Vec<Change<A>>) {
    let times = [0, 0, 0, 1, 1, 2][rng.below(6)];
    if times > 0 {
        let changes = changes();
        (0..times).for_each(|_| rng.pick(&changes)(call));
    }
}
