//! Stops at every byte.

use crate::transcript::check;

/// A house that has learnt two orders and synced neither: one is done, the other dropped.
const LEARNT: &str = "
    houses 1 => ok
    submit 0 0 1 0 0 1 3 8 => ok
    submit 0 0 1 1 0 1 4 8 => ok
    hold 0 0 1 0 => ok
    hold 0 0 1 1 => ok
    vote 0 0 0 1 0 => ok
    rule 0 0 1 0 => ok
    giveup 0 0 1 1 => ok
    learn 0 1 0 1 0 => ok
    learn 0 0 0 1 1 => ok
    show => ok
    house 0 start 1 file 81 safe 61
    shelf 3 8
    ruled 0 1 0
    done 1 0 1 0
";

#[test]
fn records_that_are_not_whole_after_a_stop_are_cut_off() {
    for kept in 0..=20 {
        let house = match kept {
            0..10 => "file 62 safe 62\nheld 0 1 0 0 1 3 8\nheld 0 1 1 0 1 4 8",
            10..20 => "file 72 safe 72\nshelf 3 8\nheld 0 1 1 0 1 4 8",
            _ => "file 82 safe 82\nshelf 3 8",
        };
        check(&format!(
            "{LEARNT}stop 0 21 => 1
            stop 0 {kept} => ok
            show => ok
            house 0 start 2 {house}
            ruled 0 1 0
            done 1 0 1 0
            stop 0 1 => 1"
        ));
    }
}

#[test]
fn what_is_synced_is_kept() {
    check(&format!(
        "{LEARNT}sync 0 => ok
        stop 0 1 => 1
        stop 0 0 => ok
        show => ok
        house 0 start 2 file 82 safe 82
        shelf 3 8
        ruled 0 1 0
        done 1 0 1 0"
    ));
}

#[test]
fn a_stop_forgets_what_is_asked_about_and_tried() {
    check(
        "
        houses 2 => ok
        submit 0 0 1 0 0 1 65536 8 => ok
        hold 1 0 1 0 => ok
        vote 0 1 0 1 0 => ok
        show => ok
        house 0 start 1 file 1 safe 1
        asking 0 1 0 1
        house 1 start 1 file 21 safe 21
        held 0 1 0 0 1 65536 8
        stop 0 0 => ok
        vote 0 1 0 1 0 => 12
        rule 0 0 1 0 => 12
        hold 1 0 1 0 => ok
        submit 0 0 2 0 0 0 => ok
        show => ok
        house 0 start 2 file 2 safe 2
        asking 0 2 0
        house 1 start 1 file 21 safe 21
        held 0 1 0 0 1 65536 8
        ",
    );
}
