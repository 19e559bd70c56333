//! The kind of machine that a run is made on, and the compilers.

use std::env;
use std::fs;
use std::thread;

use crate::buffers::COLD_BYTES;
use crate::port::place_in_line;

/// The environment variable that names the toolchain of the archive.
const TOOLCHAIN: &str = "HOZGRIM_TOOLCHAIN";

pub fn described() -> Vec<String> {
    let kernel = fs::read_to_string("/proc/sys/kernel/osrelease").unwrap_or_default();
    let toolchain = env::var(TOOLCHAIN).unwrap_or("not said".into());
    vec![
        format!("processor: {}", processor()),
        format!("caches: {}", caches().join(", ")),
        format!("kernel: Linux {}", kernel.trim()),
        format!(
            "original and benchmark: {}, opt-level 3",
            env!("BENCH_RUSTC")
        ),
        format!(
            "archive: {toolchain}; linked to byte {} of a line",
            place_in_line()
        ),
        format!("cold buffers: {} MiB", COLD_BYTES >> 20),
    ]
}

fn processor() -> String {
    let described = fs::read_to_string("/proc/cpuinfo").unwrap_or_default();
    let value = |name: &str| {
        let line = described.lines().find(|line| line.starts_with(name))?;
        Some(line.split_once(": ")?.1.to_string())
    };
    let value = |name| value(name).unwrap_or("unknown".into());
    let cores = thread::available_parallelism().map_or(1, usize::from);
    let (name, family, model) = (value("model name"), value("cpu family"), value("model\t"));
    format!("{name}, family {family}, model {model}; {cores} cores")
}

/// Those of the first core.
fn caches() -> Vec<String> {
    let mut caches = vec![];
    for index in 0.. {
        let folder = format!("/sys/devices/system/cpu/cpu0/cache/index{index}");
        let read = |name| fs::read_to_string(format!("{folder}/{name}"));
        let (Ok(level), Ok(kind), Ok(size)) = (read("level"), read("type"), read("size")) else {
            break;
        };
        let (level, kind, size) = (level.trim(), kind.trim().to_lowercase(), size.trim());
        caches.push(format!("L{level} {kind} {size}"));
    }
    caches
}
