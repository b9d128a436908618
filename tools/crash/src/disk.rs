//! How much of a ledger a stop of the machine would leave: what was synced, as the trace of the calls says.

/// The bytes that are on the disk for good, where `durable` were before the process whose calls these are was started. A call is
/// traced before it is made. So a sync counts only if another call follows it: without one the process may have been killed within
/// the sync, and has said nothing since.
pub fn durable_after(trace: &str, durable: u64) -> u64 {
    let mut durable = durable;
    // a process writes its ledger from the start on
    let mut written: u64 = 0;
    let mut is_syncing = false;
    for line in trace.lines() {
        if is_syncing {
            durable = durable.max(written);
        }
        let words: Vec<&str> = line.split(' ').collect();
        is_syncing = matches!(words[..], ["fsync" | "fdatasync", "ledger"]);
        match words[..] {
            ["write", "ledger", len] => written += len.parse().unwrap_or(0),
            ["ftruncate", "ledger", len] => durable = durable.min(len.parse().unwrap_or(u64::MAX)),
            _ => {}
        }
    }
    durable
}

#[cfg(test)]
mod tests {
    use super::durable_after;

    #[test]
    fn only_what_was_synced() {
        let syncing = "write ledger 30\nwrite ledger 1\nfdatasync ledger\n";
        assert_eq!(durable_after(syncing, 20), 20);
        let start = format!("{syncing}write stdout 8\n");
        assert_eq!(durable_after(&start, 20), 31);
        let done = format!("{start}write ledger 10\nwrite stdout 7\n");
        assert_eq!(durable_after(&done, 20), 31);
        assert_eq!(durable_after("ftruncate ledger 12\nfsync ledger\n", 20), 12);
    }
}
