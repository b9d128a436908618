//! Arguments, lines and frames that are damaged, cut or absent, and standard streams that are closed.

use crate::bytes::{Name, frame, told};
use crate::folder::{Folder, append, program, run};
use std::fs;
use std::process::{Command, Stdio};

pub const TESTS: &[(&str, fn())] = &[
    ("arguments", arguments),
    ("closed streams", closed_streams),
    ("damaged lines", damaged_lines),
    ("damaged frames", damaged_frames),
    ("frame that is cut", cut_frame),
    ("in that shrinks or goes", shrunk),
    ("many frames at once", many_frames),
    ("answers are flushed", flushed),
];

fn arguments() {
    let bad: [&[&str]; 9] = [
        &[],
        &["0"],
        &["2", "2"],
        &["0", "0"],
        &["0", "17"],
        &["x", "2"],
        &["-1", "2"],
        &["+0", "2"],
        &["0", "2", "3"],
    ];
    for arguments in bad {
        let folder = Folder::new(0, 2);
        let mut command = Command::new(program());
        command.args(arguments).current_dir(&folder.path);
        command.stdout(Stdio::piped()).stderr(Stdio::piped());
        let ended = run(command, b"");
        assert_eq!((ended.out.as_str(), ended.status), ("", Some(1)));
        assert!(ended.err.starts_with("usage: house NUMBER N\n"));
        assert_eq!(fs::read_dir(&folder.path).unwrap().count(), 0);
    }
    let mut command = Command::new(program());
    command.arg("--help").stdout(Stdio::piped());
    let ended = run(command, b"");
    assert_eq!(ended.status, Some(0));
    assert!(ended.out.starts_with("usage: house NUMBER N\n"));
}

/// Whichever of the streams are closed, nothing but records gets into the ledger.
fn closed_streams() {
    for closed in [
        "<&-",
        ">&-",
        "2>&-",
        "<&- >&-",
        "<&- 2>&-",
        ">&- 2>&-",
        "<&- >&- 2>&-",
    ] {
        let folder = Folder::new(0, 1);
        for start in 1..=2 {
            let mut command = Command::new("sh");
            command
                .arg("-c")
                .arg(format!("exec \"$0\" 0 1 {closed}"))
                .arg(program())
                .current_dir(&folder.path)
                .stdin(Stdio::piped())
                .stdout(Stdio::piped())
                .stderr(Stdio::piped());
            let ended = run(command, b"shelf 5\nsubmit 0 9 9 0 0\n");
            assert_eq!(ended.status, Some(0), "{closed} {ended:?}");
            assert_eq!(folder.read("ledger"), vec![1; start], "{closed}");
            assert!(folder.read("out").is_empty() && folder.read("in").is_empty());
        }
    }
}

fn damaged_lines() {
    let folder = Folder::new(0, 2);
    let long = "9".repeat(1 << 20);
    let lines: [&[u8]; 12] = [
        b"\xff\xfe",
        b"submit 0 1 0 0 1 5",
        b"submit 0 1 0 0 1 5 3 3",
        b"submit 0 1 0 17",
        b"submit 0 1 0 0 1 5 4294967296",
        b"submit 0 1 0 0 1 4096 1",
        b"submit 2 1 0 0 0",
        b"shelf 131072",
        b"shelf -1",
        long.as_bytes(),
        b"giveup 0 0 0",
        b"shelf 5\0",
    ];
    let ended = run(folder.command(), &lines.join(&b'\n'));
    let numbers: Vec<_> = ended.lines().into_iter().skip(1).collect();
    let expected = [
        "1: 1", "2: 1", "3: 1", "4: 1", "5: 1", "6: 2", "7: 2", "8: 2", "9: 1", "10: 1", "11: 2",
        "12: 1",
    ];
    assert_eq!((numbers, ended.status), (expected.to_vec(), Some(0)));
    assert!(folder.read("out").is_empty());
}

fn damaged_frames() {
    let folder = Folder::new(0, 2);
    let name = Name(1, 1, 0);
    folder.post(b"");
    folder.post(&[9; 20]);
    folder.post(&told(true, name)[..10]);
    folder.post(&told(true, Name(2, 1, 0)));
    folder.post(&told(true, name));
    // for another house
    append(&folder.file("in"), &frame(1, &told(true, name)));
    folder.post(&[0; 65535]);
    let ended = folder.run("");
    let expected = [
        "start 1", "in: 1", "in: 1", "in: 1", "in: 2", "in: 12", "in: 12", "in: 1",
    ];
    assert_eq!((ended.lines(), ended.status), (expected.to_vec(), Some(0)));
}

fn cut_frame() {
    let folder = Folder::new(0, 2);
    let whole = frame(0, &told(true, Name(1, 1, 0)));
    let mut running = folder.start();
    for byte in &whole[..whole.len() - 1] {
        append(&folder.file("in"), &[*byte]);
        assert_eq!(running.ask(""), ["line: ok"]);
    }
    append(&folder.file("in"), &whole[whole.len() - 1..]);
    assert_eq!(running.ask(""), ["in: 12", "line: ok"]);
    assert_eq!(running.end(), Some(0));
}

fn shrunk() {
    let folder = Folder::new(0, 2);
    let message = told(true, Name(1, 1, 0));
    folder.post(&message);
    folder.post(&message);
    let mut running = folder.start();
    assert_eq!(running.ask(""), ["in: 12", "in: 12", "line: ok"]);
    folder.write("in", &[]);
    assert_eq!(running.ask(""), ["line: ok"]);
    folder.post(&message);
    assert_eq!(running.ask(""), ["in: 12", "line: ok"]);
    fs::remove_file(folder.file("in")).unwrap();
    assert_eq!(running.ask(""), ["line: ok"]);
    folder.post(&message);
    assert_eq!(running.ask(""), ["in: 12", "line: ok"]);
    assert_eq!(running.end(), Some(0));
}

/// More than is read at once.
fn many_frames() {
    let folder = Folder::new(0, 2);
    let frames = frame(0, &told(true, Name(1, 1, 0))).repeat(50000);
    folder.write("in", &frames);
    let ended = folder.run("shelf 5\n");
    let lines = ended.lines();
    assert_eq!(lines.len(), 50002);
    assert!(lines[1..50001].iter().all(|line| *line == "in: 12"));
    assert_eq!(lines[50001], "1: 0");
}

/// Each answer is there before the next line is sent.
fn flushed() {
    let folder = Folder::new(0, 1);
    let mut running = folder.start();
    for number in 0..100 {
        let answers = running.ask(&format!("submit 0 1 {number} 0 0"));
        assert_eq!(
            answers,
            ["line: ok".to_string(), format!("ruled 0 1 {number}")]
        );
    }
    assert_eq!(running.end(), Some(0));
}
