//! `hozgrim_flv_write_start` and `hozgrim_flv_write_frame` beside what is asked of them. What is
//! written is read back, by a reading of the request and by the port: the Rust has neither.

use common::flv::{self, FrameArguments, START, start_reasons};
use common::recordings::{TIMES, random_body, random_time};
use common::requirement::OUTPUT_TOO_SHORT;
use common::rng::Rng;
use common::writing::{AUDIO, Arguments, LONGEST_BODY, METADATA, Reason, SCRIPT, VIDEO};

use crate::input::Input;
use crate::run::{Comparison, Difference, same};
use crate::writing::{Lent, Writer, lower_number, smaller_bytes};

/// Frame types that are refused, the bytes of tags and numbers with the low bits of others among
/// them.
const REFUSED_TYPES: [u32; 9] = [METADATA, 4, 8, 9, 18, 255, 256, 258, u32::MAX];

/// Of a longer body, only the length is shown.
const SHOWN: usize = 600;

/// A call of one of the writers.
#[derive(Clone)]
pub enum Call {
    Start,
    Frame(FrameArguments),
}

pub struct FlvWrite;

impl Comparison for FlvWrite {
    const NAME: &'static str = "flv_write";

    const CLASSES: &'static [&'static str] = &[
        "the start",
        "too short an output for the start",
        "audio",
        "video",
        "script data",
        "a time of more than 24 bits",
        "an empty body",
        "a body of 256 to 65,535 bytes",
        "a body of 65,536 to 16,777,214 bytes",
        "a body of 16,777,215 bytes",
        "metadata, which no tag holds",
        "a frame type above 3",
        "a body over 16,777,215 bytes",
        "too short an output",
        "-21 before -27",
        "-21 before -22",
        "-27 before -22",
    ];

    const SIDES: [&'static str; 2] = ["requirement", "port"];

    type Input = Lent<Call>;

    fn listed() -> impl Iterator<Item = Self::Input> {
        starts().chain(frames()).chain(large())
    }

    fn random(rng: &mut Rng) -> Self::Input {
        let frame_type = match rng.below(8) {
            0 => *rng.pick(&REFUSED_TYPES),
            _ => rng.below(3) as u32,
        };
        let arguments = FrameArguments {
            frame_type,
            timestamp: random_time(rng),
            body: random_body(rng),
        };
        Lent::random(rng, Call::Frame(arguments))
    }

    fn compare(lent: &Self::Input) -> Result<&'static str, Difference> {
        let written = lent.same_as_asked(|output| match &lent.arguments {
            Call::Start => hozgrim_sys::flv_write_start(output),
            Call::Frame(FrameArguments {
                frame_type,
                timestamp,
                body,
            }) => hozgrim_sys::flv_write_frame(*frame_type, *timestamp, body, output),
        })?;
        if let Some(written) = written {
            match &lent.arguments {
                Call::Start => same(Ok(written.len()), flv::start(&written)).map(drop)?,
                Call::Frame(arguments) => same_when_read(arguments, &written)?,
            }
        }
        Ok(lent.class())
    }
}

/// A frame of a file: its type, its time and its body.
type Read<'a> = (u32, u32, &'a [u8]);

/// Holds a file of a start and the written frame, twice, against the frame: as the reading reads
/// it, and as the port does.
fn same_when_read(arguments: &FrameArguments, written: &[u8]) -> Result<(), Difference> {
    let given: Read = (
        arguments.frame_type,
        arguments.timestamp,
        &arguments.body[..],
    );
    let file = [START, written, written].concat();
    let frame = |tag: flv::Tag| {
        let head = tag.head;
        Some((head.frame_type()?, head.timestamp, &file[tag.body()]))
    };
    let by_reading: Option<Vec<Read>> = flv::whole(&file).map(|tag| frame(tag.ok()?)).collect();
    // Bodies are as long as the file: only whether they are alike is shown.
    same(true, by_reading == Some(vec![given; 2]))?;
    let start = hozgrim_sys::flv_start(&file);
    same((0, START.len()), (start.error, start.next))?;
    let mut at = start.next;
    for _ in 0..2 {
        let found = hozgrim_sys::flv_next(&file, at);
        same((0, 1), (found.error, found.found))?;
        let body = file
            .get(found.start..)
            .and_then(|body| body.get(..found.length));
        let read = body.map(|body| (found.frame_type, found.timestamp, body));
        same(true, read == Some(given))?;
        at = found.next;
    }
    let end = hozgrim_sys::flv_next(&file, at);
    let asked = hozgrim_sys::HozgrimFlvFrame {
        next: file.len(),
        ..Default::default()
    };
    same(asked, end).map(drop)
}

/// Outputs of up to some more bytes than the start has.
fn starts() -> impl Iterator<Item = Lent<Call>> {
    (0..START.len() + 20).map(|room| Lent {
        arguments: Call::Start,
        room,
    })
}

/// Every type with each time and some bodies, and outputs of several lengths.
fn frames() -> impl Iterator<Item = Lent<Call>> {
    let types = [AUDIO, VIDEO, SCRIPT].into_iter().chain(REFUSED_TYPES);
    let lengths = [0, 1, 2, 255, 256, 257, 32_768, 65_535, 65_536];
    types.flat_map(move |frame_type| {
        TIMES.into_iter().flat_map(move |timestamp| {
            lengths.into_iter().flat_map(move |length| {
                let body = (0..length).map(|at| at as u8 ^ 0xA1).collect();
                Lent::around(Call::Frame(FrameArguments {
                    frame_type,
                    timestamp,
                    body,
                }))
            })
        })
    })
}

/// Bodies around the longest, with outputs of several lengths.
fn large() -> impl Iterator<Item = Lent<Call>> {
    let types = [AUDIO, SCRIPT, METADATA];
    let lengths = [LONGEST_BODY - 1, LONGEST_BODY, LONGEST_BODY + 1];
    types.into_iter().flat_map(move |frame_type| {
        lengths.into_iter().flat_map(move |length| {
            Lent::around(Call::Frame(FrameArguments {
                frame_type,
                timestamp: 0x8000_0001,
                body: vec![0xAF; length],
            }))
        })
    })
}

impl Arguments for Call {
    fn reasons(&self, room: usize) -> Vec<Reason> {
        match self {
            Self::Start => {
                let name = |_| (OUTPUT_TOO_SHORT, "too short an output for the start");
                start_reasons(room).into_iter().map(name).collect()
            }
            Self::Frame(arguments) => arguments.reasons(room),
        }
    }

    fn length(&self) -> u128 {
        match self {
            Self::Start => START.len() as u128,
            Self::Frame(arguments) => arguments.length(),
        }
    }

    fn written(&self) -> Vec<u8> {
        match self {
            Self::Start => START.to_vec(),
            Self::Frame(arguments) => arguments.written(),
        }
    }
}

impl Writer for Call {
    fn written_class(&self) -> &'static str {
        let Self::Frame(arguments) = self else {
            return "the start";
        };
        match (arguments.body.len(), arguments.frame_type) {
            (LONGEST_BODY, _) => "a body of 16,777,215 bytes",
            (65_536.., _) => "a body of 65,536 to 16,777,214 bytes",
            (256.., _) => "a body of 256 to 65,535 bytes",
            _ if arguments.timestamp >> 24 != 0 => "a time of more than 24 bits",
            (0, _) => "an empty body",
            (_, AUDIO) => "audio",
            (_, VIDEO) => "video",
            _ => "script data",
        }
    }
}

impl Input for Call {
    fn smaller(&self) -> impl Iterator<Item = Self> {
        let frame = match self {
            Self::Start => None,
            Self::Frame(arguments) => Some(arguments),
        };
        let smaller = frame.into_iter().flat_map(|arguments| {
            let numbers = lower_number(arguments, |call| &mut call.frame_type)
                .chain(lower_number(arguments, |call| &mut call.timestamp));
            let bytes = smaller_bytes(arguments, &arguments.body, |call| &mut call.body);
            numbers.chain(bytes)
        });
        smaller.map(Self::Frame)
    }

    fn show(&self) -> String {
        let Self::Frame(arguments) = self else {
            return "the start".into();
        };
        let (number, time) = (arguments.frame_type, arguments.timestamp);
        let front = arguments.body[..arguments.body.len().min(SHOWN)].to_vec();
        let length = arguments.body.len();
        format!(
            "frame type {number}, time {time}, a body of {length} bytes, which begins with {}",
            front.show()
        )
    }
}
