//! What a tool prints, and how it ends if nobody can read it.

use std::fmt::Arguments;
use std::io::{self, ErrorKind, Write};
use std::process;

/// What a shell says of a program that was ended by SIGPIPE.
const READER_GONE: i32 = 128 + 13;

/// Prints a line on standard output, as `println` does, but without a panic where it cannot be
/// written: a reader that is gone, such as `head`, ends the program in silence.
#[macro_export]
macro_rules! say {
    ($($text:tt)*) => { $crate::output::line(format_args!($($text)*)) };
}

/// The line of `say`.
pub fn line(text: Arguments) {
    if let Err(error) = writeln!(io::stdout(), "{text}") {
        end(&error);
    }
}

fn end(error: &io::Error) -> ! {
    if error.kind() == ErrorKind::BrokenPipe {
        process::exit(READER_GONE);
    }
    eprintln!("standard output: {error}");
    process::exit(1);
}
