//! The scripts of the tools, up to where they call rt, cargo or a compiler: those are stood in for.

use std::os::unix::fs::{PermissionsExt, symlink};
use std::path::{Path, PathBuf};
use std::process::{Command, Output};
use std::sync::LazyLock;
use std::{env, fs, str};

const SCRIPTS: [&str; 6] = [
    "run-differential",
    "run-sheet",
    "run-recordings",
    "run-bench",
    "run-examples",
    "run-tests",
];

/// Those that need the original's files.
const COMPARING: [&str; 3] = ["run-differential", "run-sheet", "run-bench"];

/// The commands that the scripts take for granted.
const COMMANDS: [&str; 8] = [
    "bash", "cp", "cut", "dirname", "mkdir", "paste", "realpath", "sed",
];

/// The commands that are stood in for.
const TOOLS: [&str; 4] = ["cargo", "rt", "cc", "c++"];

/// Prints its call on standard error, and fails if its first word is the one that has to fail.
const STAND_IN: &str = "\
#!/usr/bin/env bash
echo \"called: ${0##*/} $*\" >&2
[ \"${1-}\" != \"${FAILING-}\" ]
";

/// A folder for each of the tools, the folder `commands`, and `original/src/types.rs`. It is made
/// before the first script runs: a file that a process has open for writing cannot be run.
static FOLDER: LazyLock<PathBuf> = LazyLock::new(|| {
    let folder = Path::new(env!("CARGO_TARGET_TMPDIR")).join("scripts of tools");
    let _ = fs::remove_dir_all(&folder);
    for name in ["commands", "original/src"].iter().chain(&TOOLS) {
        fs::create_dir_all(folder.join(name)).expect("the folder can be made");
    }
    for name in COMMANDS {
        let link = folder.join("commands").join(name);
        symlink(found(name), link).expect("the link can be made");
    }
    for name in TOOLS {
        let file = folder.join(name).join(name);
        fs::write(&file, STAND_IN).expect("the file can be written");
        let mode = fs::Permissions::from_mode(0o755);
        fs::set_permissions(&file, mode).expect("the file is ours");
    }
    fs::write(folder.join("original/src/types.rs"), "").expect("the file can be written");
    folder
});

/// Where a command is.
fn found(name: &str) -> PathBuf {
    let path = env::var_os("PATH").expect("there is a PATH");
    let mut files = env::split_paths(&path).map(|folder| folder.join(name));
    let file = files.find(|file| file.is_file());
    file.unwrap_or_else(|| panic!("the command \"{name}\" is missing"))
}

/// A call of a script.
struct Call(Command);

/// What a call came to: its status and what it wrote.
struct Ended {
    status: Option<i32>,
    printed: String,
    said: String,
}

impl Call {
    /// With these tools, and without the original's files.
    fn new(script: &str, tools: &[&str]) -> Self {
        let folders = [&["commands"], tools].concat();
        let path = env::join_paths(folders.iter().map(|name| FOLDER.join(name)));
        let root = Path::new(env!("CARGO_MANIFEST_DIR")).join("..");
        let mut command = Command::new(root.join(script));
        command
            .env_clear()
            .env("PATH", path.expect("no folder has a colon"))
            .env("LIBRTMP2_SRC", "/nowhere");
        Self(command)
    }

    fn words(mut self, words: &[&str]) -> Self {
        self.0.args(words);
        self
    }

    fn set(mut self, name: &str, value: &str) -> Self {
        self.0.env(name, value);
        self
    }

    /// With the original's files.
    fn comparing(mut self) -> Self {
        self.0.env("LIBRTMP2_SRC", FOLDER.join("original"));
        self
    }

    fn end(mut self) -> Ended {
        let Output {
            status,
            stdout,
            stderr,
        } = self.0.output().expect("the script can be run");
        let [printed, said] = [stdout, stderr].map(|text| String::from_utf8(text).expect("text"));
        Ended {
            status: status.code(),
            printed,
            said,
        }
    }
}

impl Ended {
    /// It ended with this status, after it had said this and printed nothing.
    #[track_caller]
    fn says(&self, status: i32, said: &str) {
        assert_eq!(self.status, Some(status), "{}", self.said);
        assert_eq!(self.printed, "");
        assert!(self.said.contains(said), "{}", self.said);
    }
}

#[test]
fn help_comes_without_any_tool() {
    for script in SCRIPTS {
        for word in ["--help", "-h"] {
            let Ended {
                status,
                printed,
                said,
            } = Call::new(script, &[]).words(&[word]).end();
            assert_eq!((status, said.as_str()), (Some(0), ""));
            assert!(printed.starts_with(&format!("usage: rust/{script}")));
            assert!(printed.ends_with('\n') && printed.contains("\nExample:\n"));
            assert!(printed.lines().all(|line| line.len() <= 100), "{printed}");
        }
    }
    let later = Call::new("run-differential", &[]).words(&["fourcc", "--help"]);
    assert_eq!(later.end().status, Some(0));
}

#[test]
fn a_bad_word_is_named_with_those_that_are_possible() {
    for script in SCRIPTS {
        let ended = Call::new(script, &[]).words(&["nonsense"]).end();
        ended.says(
            2,
            &format!("{script}: \"nonsense\" is not possible here; possible are:\n"),
        );
        assert!(ended.said.contains(" --help"), "{}", ended.said);
    }
    let possible = [
        ("run-differential", "fourcc modex modex_layer "),
        (
            "run-differential",
            " level split_time --seed --count --help reaches cases uplink_cases\n",
        ),
        ("run-sheet", "possible are:\n  cuts refusals "),
        (
            "run-bench",
            "possible are:\n  --quick --markdown --loop --recording --help\n",
        ),
        ("run-examples", "possible are:\n  --help\n"),
    ];
    for (script, possible) in possible {
        for word in ["", "N", "fourc", "$(touch x)", "a]"] {
            Call::new(script, &[])
                .words(&[word])
                .end()
                .says(2, possible);
        }
    }
}

#[test]
fn what_must_stand_behind_a_word_is_named() {
    let calls: [(&str, &[&str], i32, &str); 7] = [
        (
            "run-differential",
            &["--count"],
            2,
            "--count needs N behind it",
        ),
        ("run-differential", &["--seed", "x"], 2, "and \"x\" is none"),
        (
            "run-differential",
            &["--seed", "-1", "aac"],
            2,
            "and \"-1\" is none",
        ),
        ("run-sheet", &["--seed", ""], 2, "and \"\" is none"),
        (
            "run-bench",
            &["--loop", "port"],
            2,
            "--loop needs SIDE SHAPE behind it",
        ),
        (
            "run-sheet",
            &["sample", "/no where"],
            1,
            "there is no folder \"/no where\"",
        ),
        (
            "run-differential",
            &["cases", "/nowhere"],
            1,
            "there is no folder \"/nowhere\"",
        ),
    ];
    for (script, words, status, said) in calls {
        Call::new(script, &[]).words(words).end().says(status, said);
    }
}

#[test]
fn what_is_missing_is_named() {
    for script in SCRIPTS {
        let said = "the command \"cargo\" is missing: it builds the Rust side";
        Call::new(script, &[]).end().says(1, said);
    }
    for script in COMPARING {
        let said = "there is no \"/nowhere/src/types.rs\". Set LIBRTMP2_SRC";
        Call::new(script, &TOOLS).end().says(1, said);
        let without_rt = Call::new(script, &["cargo"]).comparing().end();
        without_rt.says(1, "the command \"rt\" is missing: it proves ");
    }
    for script in ["run-examples", "run-tests"] {
        let said = "the command \"cc\" is missing: it builds the C examples; CC ";
        Call::new(script, &["cargo", "rt"]).end().says(1, said);
    }
    let without_cxx = Call::new("run-tests", &["cargo", "rt", "cc"]).end();
    without_cxx.says(
        1,
        "the command \"c++\" is missing: it builds the C examples as C++; CXX ",
    );
    for script in ["run-differential", "run-bench", "run-examples"] {
        let call = Call::new(script, &TOOLS).comparing();
        let ended = call.set("HOZGRIM_STATICLIB", "/no where").end();
        assert_eq!(ended.status, Some(1));
        assert!(
            ended.said.contains("there is no \"/no where/lib"),
            "{}",
            ended.said
        );
    }
}

#[test]
fn words_go_to_the_program() {
    let words = ["fourcc", "--seed", "7", "fourcc", "--count", "0"];
    let ended = Call::new("run-differential", &TOOLS)
        .comparing()
        .words(&words)
        .end();
    ended.says(0, "called: rt lib\ncalled: rt lib\n");
    ended.says(
        0,
        "--package differential -- fourcc --seed 7 fourcc --count 0\n",
    );
    let words = ["--loop", "port", "AAC, 1,200 B"];
    let ended = Call::new("run-bench", &TOOLS)
        .comparing()
        .words(&words)
        .end();
    ended.says(0, "--package bench -- --loop port AAC, 1,200 B\n");
    let ended = Call::new("run-bench", &TOOLS)
        .comparing()
        .words(&["--recording", "--quick"])
        .end();
    ended.says(0, "called: rt run\n");
    ended.says(0, "/flv_sheet ");
    ended.says(0, "/target/bench --quick\n");
    let ended = Call::new("run-sheet", &TOOLS)
        .comparing()
        .words(&["short"])
        .end();
    ended.says(0, "called: rt run\ncalled: rt run\n");
    ended.says(0, "/target/sheet-check short\n");
}

#[test]
fn programs_that_are_there_are_taken() {
    let call = || Call::new("run-sheet", &TOOLS).comparing().words(&["short"]);
    let programs = FOLDER.join("programs of a call");
    let ended = call().set("HOZGRIM_PROGRAMS", "/no where").end();
    ended.says(
        1,
        "HOZGRIM_PROGRAMS is set, and there is no \"/no where/sheet\"\n",
    );
    fs::create_dir_all(&programs).expect("the folder can be made");
    for name in ["sheet", "flv_sheet"] {
        fs::write(programs.join(name), "").expect("the file can be written");
    }
    let programs = programs.to_str().expect("text");
    let ended = call().set("HOZGRIM_PROGRAMS", programs).end();
    ended.says(0, &format!("-- check {programs} "));
    assert!(!ended.said.contains("called: rt"), "{}", ended.said);
}

#[test]
fn recordings_are_skipped_without_ffmpeg() {
    let ended = Call::new("run-recordings", &TOOLS).end();
    assert_eq!((ended.status, ended.said.as_str()), (Some(0), ""));
    let skipped = "run-recordings: skipped: there is no command \"ffmpeg\" ";
    assert!(ended.printed.starts_with(skipped), "{}", ended.printed);
}

#[test]
fn what_is_not_made_ends_a_run() {
    let call = Call::new("run-differential", &TOOLS).comparing();
    let ended = call.set("FAILING", "lib").end();
    ended.says(1, "rt lib did not make the archive of leaf_exports\n");
    assert!(!ended.said.contains("called: cargo"));
    let call = Call::new("run-sheet", &TOOLS).comparing();
    let ended = call.set("FAILING", "run").end();
    ended.says(1, "rt run did not build the program sheet\n");
}

#[test]
fn tests_end_with_the_step_that_fails() {
    for (step, name) in [("fmt", "cargo fmt --check"), ("test", "cargo test")] {
        let ended = Call::new("run-tests", &TOOLS).set("FAILING", step).end();
        assert_eq!(ended.status, Some(1));
        assert!(
            ended
                .said
                .ends_with(&format!("run-tests: FAILED: {name}\n"))
        );
        let skipped =
            "run-tests: skipped: packages that need the original's files, since there is no ";
        assert!(ended.printed.contains(skipped), "{}", ended.printed);
        assert!(!ended.said.contains("--workspace"), "{}", ended.said);
        assert!(!ended.said.contains("leaf_exports"), "{}", ended.said);
        let ended = Call::new("run-tests", &TOOLS)
            .set("FAILING", step)
            .comparing()
            .end();
        assert!(!ended.printed.contains("skipped"), "{}", ended.printed);
        assert_eq!(ended.said.contains("--workspace"), step == "test");
        assert!(ended.said.contains("called: rt lib\ncalled: rt lib\n"));
    }
}
