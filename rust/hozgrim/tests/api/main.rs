//! The package as a relay uses it.

mod c_declarations;
mod c_header;
mod columns;
mod example;
mod flv_reading;
mod flv_writing;
mod in_place;
mod levels;
mod names;
mod numbers;
mod readings;
mod refusals;
mod requirement;
mod same;
mod sets;
mod store;
mod stored;
mod times;
mod tracks;
mod uplink;
mod writers;

use hozgrim::{CAPS_EX_MODEX, FrameType, Report};

/// The report of a pass that peels, with an output as long as the payload, and the result.
fn peeled(frame_type: FrameType, payload: &[u8]) -> (Report, Vec<u8>) {
    passed(frame_type, payload, CAPS_EX_MODEX, true)
}

/// The report of a pass that peels nothing.
fn unpeeled(frame_type: FrameType, payload: &[u8], has_video: bool) -> Report {
    let (report, result) = passed(frame_type, payload, 0, has_video);
    assert_eq!(result, payload);
    report
}

fn passed(frame_type: FrameType, payload: &[u8], mask: u32, has_video: bool) -> (Report, Vec<u8>) {
    let mut output = vec![0xA5; payload.len()];
    let report = hozgrim::pass(frame_type, payload, mask, has_video, &mut output)
        .expect("it is not refused");
    let result = report.result(&output).to_vec();
    assert!(output[result.len()..].iter().all(|byte| *byte == 0xA5));
    let same = in_place::agreed(frame_type, payload, mask, has_video);
    assert_eq!(same, Ok(report), "{payload:02X?}");
    (report, result)
}
