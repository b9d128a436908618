//! Ledgers that are new, torn, refused, full or no files, and what opening leaves of them.

use crate::bytes::{Name, frame, held, told};
use crate::folder::{Folder, run};
use std::fs;
use std::os::unix::fs::{PermissionsExt, chown, symlink};
use std::os::unix::process::CommandExt;

pub const TESTS: &[(&str, fn())] = &[
    ("new folder", fresh),
    ("torn end at every byte", torn),
    ("refused ledger is untouched", refused),
    ("full ledger", full),
    ("ledger that is too long", too_long),
    ("ledger that is no file", no_file),
    ("ledger that may not be written", read_only),
    ("torn end of out", torn_out),
];

const NAME: Name = Name(1, 1, 0);

/// The three files are made and the folder is synced, before began is.
fn fresh() {
    let folder = Folder::new(0, 1);
    let ended = run(folder.traced(""), b"");
    assert_eq!((ended.out.as_str(), ended.status), ("start 1\n", Some(0)));
    let trace = folder.trace();
    let calls = [
        "fsync .",
        "write ledger 1",
        "fdatasync ledger",
        "write stdout 8",
    ];
    assert_eq!(trace, calls);
    for name in ["in", "out"] {
        assert!(folder.file(name).exists() && folder.read(name).is_empty());
    }
    assert_eq!(folder.read("ledger"), [1]);
    assert!(!folder.file("lock").exists());
}

fn torn() {
    let records = [
        held(Name(1, 1, 1), &[(6, 4)]),
        [vec![3], told(true, NAME)[2..].to_vec()].concat(),
    ];
    for record in records {
        for len in 0..record.len() {
            let folder = Folder::new(0, 2);
            let whole = [vec![1], held(NAME, &[(5, 3)])].concat();
            folder.write("ledger", &[&whole, &record[..len]].concat());
            let ended = run(folder.traced(""), b"shelf 5\n");
            assert_eq!(ended.out, "start 2\n1: 0\n");
            assert_eq!(folder.read("ledger"), [whole.as_slice(), &[1]].concat());
            // the cut is on the disk for good before anything is written
            let cut = ["ftruncate ledger 21", "fsync ledger"];
            let written = ["write ledger 21", "write ledger 1", "fdatasync ledger"];
            let calls: &[&str] = if len == 0 { &[] } else { &cut };
            let trace = folder.trace();
            assert_eq!(trace[1..1 + calls.len()], *calls);
            assert_eq!(trace[1 + calls.len()..4 + calls.len()], written);
        }
    }
}

fn refused() {
    let cases = [
        (vec![9], 1),
        (vec![1, 2, 1, 0, 0, 0, 1, 0, 0, 0, 0, 17], 1),
        ([vec![1], held(Name(2, 1, 0), &[(5, 3)])].concat(), 2),
        (held(NAME, &[(5, 3)]), 3),
        ([vec![1], held(NAME, &[(65541, 3)])].concat(), 3),
        (vec![1; 65535], 3),
    ];
    for (bytes, number) in cases {
        let folder = Folder::new(0, 2);
        folder.write("ledger", &bytes);
        let path = folder.file("ledger");
        let before = fs::metadata(&path).unwrap().modified().unwrap();
        let ended = folder.run("shelf 5\n");
        assert_eq!(ended.out, format!("refused {number}\n"));
        assert_eq!(ended.status, Some(1));
        assert_eq!(folder.read("ledger"), bytes);
        assert_eq!(fs::metadata(&path).unwrap().modified().unwrap(), before);
        assert!(!folder.file("lock").exists());
    }
}

/// A ledger of one started house whose records have so many bytes in all: held and dropped orders.
fn long_ledger(bytes: usize) -> Vec<u8> {
    let mut ledger = vec![1];
    let mut number = 0;
    let mut start = 1;
    let pair = held(NAME, &[(5, 3)]).len() + 10;
    while ledger.len() + pair <= bytes {
        let name = Name(1, start, number);
        ledger.extend(held(name, &[(5, 3)]));
        ledger.push(4);
        ledger.extend(crate::bytes::name(name));
        number += 1;
        if number == 65536 {
            (start, number) = (start + 1, 0);
        }
    }
    ledger.resize(bytes, 1);
    ledger
}

fn full() {
    let most = 4 * 1024 * 1024;
    let folder = Folder::new(0, 2);
    folder.write("ledger", &long_ledger(most - 29));
    // room for began and 28 bytes more: for the 20 of a held record, and then not for the 10 of a dropped one
    let name = Name(1, 9, 9);
    folder.post(&crate::bytes::hold(name, &[(7, 1)]));
    folder.post(&told(false, name));
    let ended = folder.run("submit 0 1 0 0 0\n");
    let lines = ended.lines();
    assert!(lines[0].starts_with("start "), "{ended:?}");
    assert_eq!(lines[1..], ["in: ok", "in: 15", "1: 4"]);
    assert_eq!(folder.read("ledger").len(), most - 8);
    let full = Folder::new(0, 2);
    full.write("ledger", &long_ledger(most));
    let ended = full.run("");
    assert_eq!(
        (ended.out.as_str(), ended.status),
        ("refused 15\n", Some(1))
    );
}

fn too_long() {
    let folder = Folder::new(0, 2);
    let bytes = long_ledger(5 * 1024 * 1024);
    folder.write("ledger", &bytes);
    let ended = folder.run("");
    assert_eq!((ended.out.as_str(), ended.status), ("refused 3\n", Some(1)));
    assert!(folder.read("ledger") == bytes);
}

fn no_file() {
    let folder = Folder::new(0, 2);
    symlink("/dev/full", folder.file("ledger")).unwrap();
    let ended = folder.run("shelf 5\n");
    assert_eq!((ended.out.as_str(), ended.status), ("", Some(1)));
    assert!(ended.err.contains("ledger: not a regular file"));
    let folder = Folder::new(0, 2);
    fs::create_dir(folder.file("in")).unwrap();
    let ended = folder.run("shelf 5\n");
    assert_eq!((ended.out.as_str(), ended.status), ("", Some(1)));
    assert!(ended.err.contains("in: not a regular file"));
}

/// As nobody, where this is root's, who may write everything.
fn read_only() {
    let folder = Folder::new(0, 2);
    folder.write("ledger", &[1]);
    let path = folder.file("ledger");
    fs::set_permissions(&path, fs::Permissions::from_mode(0o444)).unwrap();
    let mut command = folder.command();
    if chown(&folder.path, Some(65534), Some(65534)).is_ok() {
        command.uid(65534).gid(65534);
    }
    let ended = run(command, b"shelf 5\n");
    assert_eq!((ended.out.as_str(), ended.status), ("", Some(1)));
    assert!(ended.err.contains("ledger: "), "{ended:?}");
    assert_eq!(folder.read("ledger"), [1]);
}

/// What a stop left of a frame is cut off, so that the next frame can be found.
fn torn_out() {
    let folder = Folder::new(0, 2);
    let first = frame(1, b"message");
    folder.write("out", &[&first[..], &[1, 0, 9, 8]].concat());
    folder.run("submit 0 1 0 0 1 5 3\n");
    let sent = crate::bytes::frames(&folder.read("out"));
    let hold = crate::bytes::hold(Name(0, 1, 0), &[(5, 3)]);
    assert_eq!(sent, [(1, b"message".to_vec()), (0, hold)]);
}
