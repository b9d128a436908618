//! No two processes have one ledger open.

use crate::folder::{Folder, Running};
use std::fs;
use std::thread;
use std::time::Duration;

pub const TESTS: &[(&str, fn())] = &[
    ("second process", second),
    ("process that was killed", killed),
    ("lock of another start of the machine", other_boot),
    ("lock of an unknown process", unknown),
    ("many at once", many),
    ("killed at any moment", killed_at_start),
];

fn second() {
    let folder = Folder::new(0, 1);
    let first = folder.start();
    assert_eq!(first.first, "start 1");
    let ended = folder.run("shelf 5\n");
    assert_eq!((ended.out.as_str(), ended.status), ("", Some(1)));
    assert!(ended.err.contains("the folder is in use"), "{ended:?}");
    assert_eq!(folder.read("ledger"), [1]);
    assert_eq!(first.end(), Some(0));
    assert_eq!(folder.run("").out, "start 2\n");
    assert_eq!(fs::read_dir(&folder.path).unwrap().count(), 3);
}

fn killed() {
    let folder = Folder::new(0, 1);
    for start in 1..5 {
        let running = folder.start();
        assert_eq!(running.first, format!("start {start}"));
        running.kill();
    }
    // one that has ended while nobody asked how counts as gone
    let mut running = folder.start();
    running.child.kill().unwrap();
    while !is_over(running.child.id()) {}
    assert_eq!(folder.run("").out, "start 6\n");
    running.kill();
}

fn is_over(process: u32) -> bool {
    fs::read_to_string(format!("/proc/{process}/stat")).is_ok_and(|stat| stat.contains(") Z "))
}

fn left_behind(folder: &Folder, name: &str) {
    fs::create_dir(folder.file("lock")).unwrap();
    folder.write(&format!("lock/{name}"), b"");
}

fn other_boot() {
    let folder = Folder::new(0, 1);
    left_behind(&folder, "1.1.1.00000000-0000-0000-0000-000000000000");
    assert_eq!(folder.run("").out, "start 1\n");
}

/// What can't be judged is left as it is.
fn unknown() {
    let boot = fs::read_to_string("/proc/sys/kernel/random/boot_id").unwrap();
    let container = format!("99999999.1.99999999.{}", boot.trim());
    for name in ["backup", container.as_str()] {
        let folder = Folder::new(0, 1);
        left_behind(&folder, name);
        let ended = folder.run("");
        assert_eq!((ended.out.as_str(), ended.status), ("", Some(1)));
        assert!(ended.err.contains(name) && folder.read("ledger").is_empty());
    }
}

/// Of many that start at once, over a lock that was left behind, one gets the ledger.
fn many() {
    let folder = Folder::new(0, 1);
    folder.start().kill();
    for round in 0..20 {
        let started: Vec<_> = (0..12).map(|_| folder.command().spawn().unwrap()).collect();
        let mut running: Vec<_> = started.into_iter().map(Running::of).collect();
        let up = running.iter().filter(|r| !r.first.is_empty()).count();
        assert_eq!(up, 1, "round {round}");
        assert_eq!(folder.read("ledger").len(), round + 2);
        // killed, so that the next round finds a lock left behind
        for process in running.drain(..) {
            process.kill();
        }
    }
}

/// Killed while it starts, again and again: the next one comes up, and nothing piles up.
fn killed_at_start() {
    let folder = Folder::new(0, 1);
    for turn in 0..200 {
        let mut child = folder.command().spawn().unwrap();
        thread::sleep(Duration::from_micros(10 * turn));
        child.kill().unwrap();
        child.wait().unwrap();
        let found = fs::read_dir(&folder.path).unwrap().count();
        assert!(found <= 5, "turn {turn}");
    }
    assert!(folder.run("shelf 5\n").out.ends_with("\n1: 0\n"));
    assert_eq!(fs::read_dir(&folder.path).unwrap().count(), 3);
}
