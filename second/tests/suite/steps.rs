//! The answers of single steps.

use crate::transcript::check;

#[test]
fn submit_is_refused_by_the_lowest_number() {
    check(
        "
        houses 2 => ok
        submit 2 0 1 0 0 0 => 2
        submit 0 2 1 0 0 0 => 2
        submit 0 0 0 0 0 0 => 2
        submit 0 0 65536 0 0 0 => 2
        submit 0 0 1 65536 0 0 => 2
        submit 0 0 1 0 1 4096 0 0 => 2
        submit 0 0 1 0 0 1 131072 0 => 2
        submit 1 0 1 0 0 1 4096 0 => 2
        submit 1 0 1 0 0 0 => 4
        submit 0 0 2 0 0 0 => 4
        submit 0 0 1 65535 1 69631 0 0 => ok
        submit 0 0 1 65535 0 0 => 5
        submit 0 0 2 65535 0 0 => 4
        giveup 0 0 1 65535 => ok
        submit 0 0 1 65535 0 0 => 5
        stop 0 0 => ok
        submit 0 0 1 65535 0 0 => 4
        submit 0 0 2 65535 0 0 => ok
        ",
    );
}

#[test]
fn messages_that_nobody_sent_are_refused_by_1() {
    check(
        "
        houses 3 => ok
        hold 0 0 1 0 => 1
        hold 9 9 9 9 => 1
        submit 0 0 1 0 0 1 65536 5 => ok
        hold 9 0 1 0 => 2
        vote 0 1 0 1 0 => 1
        hold 0 0 1 0 => 7
        hold 1 0 1 0 => ok
        vote 0 0 0 1 0 => 1
        vote 0 9 0 1 0 => 1
        vote 9 1 0 1 0 => 2
        vote 2 1 0 1 0 => 12
        learn 1 1 0 1 0 => 1
        learn 1 0 0 1 0 => 1
        vote 0 1 0 1 0 => ok
        vote 0 1 0 1 0 => ok
        rule 0 0 1 0 => ok
        vote 0 1 0 1 0 => 12
        learn 1 0 0 1 0 => 1
        learn 3 1 0 1 0 => 2
        learn 2 1 0 1 0 => 12
        learn 1 1 0 1 0 => ok
        learn 1 1 0 1 0 => 12
        ",
    );
}

#[test]
fn a_hold_is_repeated_while_the_order_is_held_back_and_not_later() {
    check(
        "
        houses 1 => ok
        submit 0 0 1 0 1 7 0 1 7 5 => ok
        hold 0 0 1 0 => ok
        hold 0 0 1 0 => ok
        giveup 0 0 1 0 => ok
        hold 0 0 1 0 => ok
        show => ok
        house 0 start 1 file 29 safe 29
        held 0 1 0 1 7 0 1 7 5
        learn 0 0 0 1 0 => ok
        hold 0 0 1 0 => 8
        show => ok
        house 0 start 1 file 39 safe 29
        ",
    );
}

#[test]
fn orders_clash_by_keys_of_any_house_but_not_by_reads() {
    check(
        "
        houses 2 => ok
        submit 0 0 1 0 1 7 0 1 65536 1 => ok
        submit 0 0 1 1 1 7 0 1 65537 1 => ok
        submit 0 0 1 2 1 65536 0 1 9 1 => ok
        submit 0 0 1 3 0 1 7 1 => ok
        hold 0 0 1 0 => ok
        hold 0 0 1 1 => ok
        hold 0 0 1 2 => 9
        hold 0 0 1 3 => 9
        hold 1 0 1 2 => ok
        hold 1 0 1 0 => 9
        show => ok
        house 0 start 1 file 57 safe 57
        held 0 1 0 1 7 0 1 65536 1
        held 0 1 1 1 7 0 1 65537 1
        asking 0 1 0
        asking 0 1 1
        asking 0 1 2
        asking 0 1 3
        house 1 start 1 file 29 safe 29
        held 0 1 2 1 65536 0 1 9 1
        ",
    );
}

#[test]
fn writes_are_done_in_their_order_and_zero_is_not_shown() {
    check(
        "
        houses 1 => ok
        submit 0 0 1 0 0 4 3 1 3 2 4 9 4 0 => ok
        hold 0 0 1 0 => ok
        vote 0 0 0 1 0 => ok
        rule 0 0 1 0 => ok
        learn 0 1 0 1 0 => ok
        submit 0 0 1 1 2 4 0 3 2 0 => ok
        hold 0 0 1 1 => ok
        submit 0 0 1 2 2 3 2 3 1 0 => ok
        hold 0 0 1 2 => 10
        show => ok
        house 0 start 1 file 127 safe 127
        shelf 3 2
        held 0 1 1 2 4 0 3 2 0
        asking 0 1 1
        asking 0 1 2
        ruled 0 1 0
        done 1 0 1 0
        ",
    );
}

#[test]
fn a_home_answers_what_its_file_and_its_memory_say() {
    check(
        "
        houses 2 => ok
        answer 0 1 1 0 => 14
        answer 0 0 1 0 => 14
        answer 0 0 2 0 => 14
        answer 0 0 0 0 => 2
        answer 2 0 1 0 => 2
        submit 0 0 1 0 0 0 => ok
        submit 0 0 1 1 0 0 => ok
        submit 0 0 1 2 0 0 => ok
        answer 0 0 1 0 => 14
        rule 0 0 1 0 => ok
        giveup 0 0 1 1 => ok
        answer 0 0 1 0 => yes
        answer 0 0 1 1 => no
        answer 0 0 1 2 => 14
        answer 1 0 1 0 => 14
        stop 0 0 => ok
        answer 0 0 1 0 => yes
        answer 0 0 1 1 => no
        answer 0 0 1 2 => no
        answer 0 0 1 9 => no
        answer 0 0 2 9 => 14
        learn 1 0 0 1 9 => 12
        rule 0 0 1 2 => 12
        giveup 0 0 1 2 => 12
        ",
    );
}

#[test]
fn sixty_four_orders_are_asked_about_and_held_back() {
    let mut script = "houses 1 => ok\n".to_string();
    for number in 0..64 {
        script += &format!("submit 0 0 1 {number} 0 1 {number} 1 => ok\n");
        script += &format!("hold 0 0 1 {number} => ok\n");
    }
    script += "
        submit 0 0 1 64 0 1 64 1 => 6
        submit 0 0 1 63 0 1 64 1 => 5
        giveup 0 0 1 0 => ok
        submit 0 0 1 64 0 1 64 1 => ok
        hold 0 0 1 64 => 11
        hold 0 0 1 63 => ok
        learn 0 0 0 1 0 => ok
        hold 0 0 1 64 => ok
    "
    .trim_start();
    check(&script);
}
