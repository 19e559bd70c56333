//! The packets that ffprobe lists, a line each: `codec_type=audio|dts=0|size=5|pos=13`.

/// What ffprobe and the port both know of a frame.
#[derive(Debug, PartialEq)]
pub struct Packet {
    pub is_video: bool,
    /// When it is decoded, in milliseconds.
    pub time: i64,
    /// Its length without the bytes that FLV puts before what is coded.
    pub size: usize,
    /// Where its tag begins.
    pub place: usize,
}

pub fn listed(lines: &str) -> Result<Vec<Packet>, String> {
    let packet = |line: &str| {
        let of = |name: &str| {
            let mut fields = line.split('|').filter_map(|field| field.split_once('='));
            fields.find(|(key, _)| *key == name).map(|(_, value)| value)
        };
        Some(Packet {
            is_video: of("codec_type")? == "video",
            time: of("dts")?.parse().ok()?,
            size: of("size")?.parse().ok()?,
            place: of("pos")?.parse().ok()?,
        })
    };
    let lines = lines.lines().filter(|line| !line.is_empty());
    lines
        .map(|line| packet(line).ok_or_else(|| format!("ffprobe printed \"{line}\"")))
        .collect()
}

#[cfg(test)]
mod tests {
    use super::*;

    #[test]
    fn fields_in_any_order() {
        let lines =
            "codec_type=video|dts=20000|size=5|pos=13|\n\npos=9|codec_type=audio|dts=-1|size=0\n";
        let packet = |is_video, time, size, place| Packet {
            is_video,
            time,
            size,
            place,
        };
        let packets = [packet(true, 20_000, 5, 13), packet(false, -1, 0, 9)];
        assert_eq!(listed(lines).as_deref(), Ok(&packets[..]));
    }

    #[test]
    fn a_line_that_is_none() {
        for line in ["codec_type=video|dts=N/A|size=5|pos=13", "dts=0", "video"] {
            assert_eq!(listed(line), Err(format!("ffprobe printed \"{line}\"")));
        }
    }
}
