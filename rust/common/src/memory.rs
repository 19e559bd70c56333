//! How much memory a process holds.

use std::fs;

/// The most that it has held so far, in KiB; none, if the system does not say.
pub fn most_of(process: u32) -> Option<u64> {
    let status = fs::read_to_string(format!("/proc/{process}/status")).ok()?;
    let line = status
        .lines()
        .find_map(|line| line.strip_prefix("VmHWM:"))?;
    line.trim().strip_suffix(" kB")?.parse().ok()
}

#[cfg(test)]
mod tests {
    use std::process;

    use super::*;

    #[test]
    fn it_grows_with_what_is_held() {
        let before = most_of(process::id()).expect("Linux says it");
        let held = vec![1u8; 64 << 20];
        let behind = most_of(process::id()).expect("Linux says it");
        assert!(held.iter().all(|byte| *byte == 1));
        assert!(behind > before.max(60 << 10), "{before} and {behind}");
    }

    #[test]
    fn no_process() {
        assert_eq!(most_of(u32::MAX), None);
    }
}
