//! Writes and syncs that fail: the house ends with status 1, and has said nothing that the disk doesn't have.

use crate::bytes::{Name, frames, hold, yes};
use crate::folder::{Folder, Run, run};
use std::os::unix::fs::symlink;
use std::process::{Command, Stdio};

pub const TESTS: &[(&str, fn())] = &[
    ("append, sync, send, print", in_order),
    ("failed sync of a hold", sync_of_hold),
    ("failed sync of a ruling", sync_of_ruling),
    ("failed write of a record", write_of_record),
    ("part of a record written", part_of_record),
    ("failed start", start),
    ("failed write of out", write_of_out),
    ("limit of a file's size", size_limit),
    ("output that can't be written", full_output),
    ("trust after a failed sync", trust),
];

const IO: i32 = 5;
const NO_SPACE: i32 = 28;
const NAME: Name = Name(1, 1, 0);

/// Runs a house on one hold, with a call that fails.
fn hold_with(folder: &Folder, fail: &str) -> Run {
    folder.post(&hold(NAME, &[(5, 3)]));
    run(folder.traced(fail), b"")
}

/// The calls behind the start.
fn calls(folder: &Folder) -> Vec<String> {
    let trace = folder.trace();
    let start = trace.iter().position(|call| call == "write stdout 8");
    trace[start.expect("a start") + 1..].to_vec()
}

fn in_order() {
    let folder = Folder::new(0, 2);
    let ended = hold_with(&folder, "");
    assert_eq!(ended.lines(), ["start 1", "in: ok"]);
    let expected = [
        "write ledger 20",
        "fdatasync ledger",
        "write out 14",
        "write stdout 7",
    ];
    assert_eq!(calls(&folder), expected);
    // a ruling too, and what is told
    let folder = Folder::new(0, 1);
    run(folder.traced(""), b"submit 0 1 0 0 0\n");
    let expected = ["write ledger 12", "fdatasync ledger", "write out 14"];
    // before it the hold, which is for nobody
    assert_eq!(calls(&folder)[..3], expected);
}

/// Ended with status 1 and its reason, and the answer was not given.
fn assert_failed(ended: &Run, reason: &str) {
    assert_eq!(ended.status, Some(1), "{ended:?}");
    assert!(ended.err.contains(reason), "{ended:?}");
    assert_eq!(ended.out, "start 1\n");
}

fn sync_of_hold() {
    let folder = Folder::new(0, 2);
    let ended = hold_with(&folder, &format!("fdatasync ledger 2 {IO}"));
    assert_failed(&ended, "ledger: not synced");
    assert!(folder.read("out").is_empty());
    // nothing is written after it
    assert_eq!(
        calls(&folder)[..2],
        ["write ledger 20", "fdatasync ledger failed"]
    );
    assert!(
        !calls(&folder)[2..]
            .iter()
            .any(|call| call.contains("ledger"))
    );
}

fn sync_of_ruling() {
    let folder = Folder::new(0, 1);
    let ended = run(
        folder.traced(&format!("fdatasync ledger 2 {IO}")),
        b"submit 0 1 0 0 0\n",
    );
    assert_eq!(ended.status, Some(1));
    // the order is asked about; of the ruling nothing was said
    assert_eq!(ended.out, "start 1\n1: ok\n");
    assert!(folder.read("out").is_empty());
}

fn write_of_record() {
    let folder = Folder::new(0, 2);
    let ended = hold_with(&folder, &format!("write ledger 2 {NO_SPACE}"));
    assert_failed(&ended, "ledger: not written");
    assert!(folder.read("out").is_empty());
    assert_eq!(folder.read("ledger"), [1]);
    // with room again, it comes up and holds
    assert_eq!(folder.run("").out, "start 2\nin: ok\n");
}

fn part_of_record() {
    let folder = Folder::new(0, 2);
    let ended = hold_with(&folder, &format!("short ledger 2 {NO_SPACE}"));
    assert_failed(&ended, "ledger: not written");
    assert!(folder.read("out").is_empty());
    assert_eq!(folder.read("ledger").len(), 11);
    assert_eq!(folder.run("").out, "start 2\nin: ok\n");
    assert_eq!(frames(&folder.read("out")), [(1, yes(0, NAME))]);
}

/// Whatever fails while it comes up, it prints nothing, and comes up later.
fn start() {
    let cases = [
        format!("fsync . 1 {IO}"),
        format!("ftruncate ledger 1 {IO}"),
        format!("fsync ledger 1 {IO}"),
        format!("write ledger 1 {NO_SPACE}"),
        format!("write ledger 2 {NO_SPACE}"),
        format!("short ledger 1 {NO_SPACE}"),
        format!("fdatasync ledger 1 {IO}"),
    ];
    for fail in cases {
        let folder = Folder::new(0, 2);
        folder.write("ledger", &[1, 1, 3, 0]);
        let ended = run(folder.traced(&fail), b"shelf 5\n");
        assert_eq!((ended.out.as_str(), ended.status), ("", Some(1)), "{fail}");
        assert!(!ended.err.is_empty());
        let ended = folder.run("shelf 5\n");
        assert!(ended.out.ends_with("\n1: 0\n"), "{fail} {ended:?}");
        assert!(
            folder.read("ledger").iter().all(|byte| *byte == 1),
            "{fail}"
        );
    }
}

fn write_of_out() {
    for fail in ["write", "short"] {
        let folder = Folder::new(0, 2);
        let ended = hold_with(&folder, &format!("{fail} out 1 {NO_SPACE}"));
        assert_failed(&ended, "out: not written");
        // it holds the order, and says so the next time
        assert_eq!(folder.run("").out, "start 2\nin: ok\n");
        assert_eq!(frames(&folder.read("out")), [(1, yes(0, NAME))]);
    }
    let folder = Folder::new(0, 2);
    symlink("/dev/full", folder.file("out")).unwrap();
    folder.post(&hold(NAME, &[(5, 3)]));
    assert_failed(&folder.run(""), "out: not written");
}

/// A file may not grow past a block: the record does not fit.
fn size_limit() {
    let folder = Folder::new(0, 2);
    folder.write("ledger", &[1; 500]);
    folder.post(&hold(NAME, &[(5, 3)]));
    let mut command = Command::new("sh");
    command
        .arg("-c")
        .arg("trap '' XFSZ; ulimit -f 1; exec \"$0\" 0 2")
        .arg(crate::folder::program())
        .current_dir(&folder.path)
        .stdin(Stdio::piped())
        .stdout(Stdio::piped())
        .stderr(Stdio::piped());
    let ended = run(command, b"");
    assert_eq!((ended.out.as_str(), ended.status), ("start 501\n", Some(1)));
    assert!(ended.err.contains("ledger: not written"), "{ended:?}");
    assert!(folder.read("out").is_empty());
    assert_eq!(folder.run("").out, "start 502\nin: ok\n");
}

fn full_output() {
    let folder = Folder::new(0, 2);
    let mut command = folder.command();
    let full = std::fs::OpenOptions::new().write(true).open("/dev/full");
    command.stdout(full.unwrap());
    let ended = run(command, b"shelf 5\n");
    assert_eq!(ended.status, Some(1));
    assert_eq!(folder.read("ledger"), [1]);
}

/// What the system shows after a failed sync may not be on the disk, and would never get there: it is written again.
fn trust() {
    let folder = Folder::new(0, 2);
    hold_with(&folder, &format!("fdatasync ledger 2 {IO}"));
    let len = folder.read("ledger").len();
    assert_eq!(len, 21);
    std::fs::remove_file(folder.file("trace")).unwrap();
    run(folder.traced(""), b"");
    let expected = [
        "fsync .",
        "write ledger 21",
        "write ledger 1",
        "fdatasync ledger",
        "write stdout 8",
    ];
    assert_eq!(folder.trace()[..5], expected);
}
