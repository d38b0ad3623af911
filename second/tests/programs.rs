//! The three programs, run as programs.

use std::io::Write;
use std::path::{Path, PathBuf};
use std::process::{Command, Stdio};
use std::{env, fs};

use second::listing::listing;
use second::streams::{stream, Kind};

/// A folder of its own for each test, removed at the end.
struct Scratch(PathBuf);

impl Scratch {
    fn new(name: &str) -> Scratch {
        let folder = env::temp_dir().join(format!("second-{}-{}", name, std::process::id()));
        Scratch(folder)
    }

    fn file(&self, name: &str) -> PathBuf {
        self.0.join(name)
    }
}

impl Drop for Scratch {
    fn drop(&mut self) {
        let _ = fs::remove_dir_all(&self.0);
    }
}

fn run(program: &str, arguments: &[&str], folder: &Path) -> (bool, String) {
    let output = Command::new(program)
        .args(arguments)
        .arg(folder)
        .output()
        .unwrap();
    let printed = String::from_utf8(output.stdout).unwrap();
    (output.status.success(), printed)
}

#[test]
fn listing_prints_the_listing_of_its_input() {
    for bytes in [stream(Kind::Strays, 8, 400), Vec::new(), vec![9; 65_537]] {
        let mut child = Command::new(env!("CARGO_BIN_EXE_listing"))
            .stdin(Stdio::piped())
            .stdout(Stdio::piped())
            .spawn()
            .unwrap();
        child.stdin.take().unwrap().write_all(&bytes).unwrap();
        let output = child.wait_with_output().unwrap();
        assert!(output.status.success());
        assert_eq!(output.stdout, listing(&bytes).into_bytes());
    }
}

#[test]
fn streams_writes_streams_with_their_listings() {
    let scratch = Scratch::new("streams");
    let program = env!("CARGO_BIN_EXE_streams");
    let (success, _) = run(program, &["drain", "5", "3", "400"], &scratch.0);
    assert!(success);
    for number in 0..3 {
        let bytes = fs::read(scratch.file(&format!("{:04}.bin", number))).unwrap();
        let text = fs::read_to_string(scratch.file(&format!("{:04}.txt", number))).unwrap();
        assert_eq!(bytes, stream(Kind::Drain, 5 + number, 400));
        assert_eq!(text, listing(&bytes));
    }
    assert!(run(program, &["mixed", "5", "3", "400"], &scratch.0).0);
    assert!(!run(program, &["other", "5", "3", "400"], &scratch.0).0);
    assert!(!run(program, &["drain", "5", "3"], &scratch.0).0);
}

#[test]
fn agree_writes_a_crate_of_theorems() {
    let scratch = Scratch::new("agree");
    let program = env!("CARGO_BIN_EXE_agree");
    let (success, printed) = run(program, &["1", "45", "200"], &scratch.0);
    assert!(success);
    assert!(printed.starts_with(
        "lively 7, extreme 7, drain 7, strays 6, damaged 6, random 6, long 6, 45 streams,"
    ));
    let modules = fs::read_to_string(scratch.file("specs/Lib.antt")).unwrap();
    assert_eq!(
        modules,
        "pub mod Streams0\npub mod Streams1\npub mod Streams2\n"
    );
    assert!(scratch.file("src/lib.rt").exists());
    let last = fs::read_to_string(scratch.file("specs/Streams2.antt")).unwrap();
    assert_eq!(last.matches("refl\n").count(), 5);
    assert!(last.contains("stream-44 = refl\n"));
    let (success, at_300) = run(program, &["1", "40"], &scratch.0);
    assert!(success && at_300 != printed);
    assert!(scratch.file("specs/Streams1.antt").exists());
    assert!(!scratch.file("specs/Streams2.antt").exists());
    assert!(!run(program, &["1"], &scratch.0).0);
}
