//! The form of lines.

use crate::transcript::{check, printed};
use second::player::play_many;

#[test]
fn before_there_are_houses_lines_are_refused_by_2_or_1() {
    check(
        "
        show => 2
        sync 7 => 2
        hold 0 0 1 0 => 2
        learn 0 1 0 1 0 => 2
        learn 0 2 0 1 0 => 1
        submit 0 0 1 0 0 0 => 2
        submit 0 0 1 0 0 => 1
        show show => 1
        houses 0 => 2
        houses 5 => 2
        houses => 1
        houses 2 2 => 1
        houses 4294967296 => 1
        houses 1 => ok
        houses 1 => 1
        houses 9 => 1
        show => ok
        house 0 start 1 file 1 safe 1
        ",
    );
}

#[test]
fn spaces_and_zeros_change_nothing() {
    let script =
        b"houses   0002\n  sync 1  \n\n   \n#show\n # show\nsync 00000000000000000000001\n";
    assert_eq!(printed(script), "1: ok\n2: ok\n6: 1\n7: ok\n");
}

#[test]
fn only_spaces_separate_words() {
    let script =
        b"houses 1\nsync\t0\nsync 0\r\nsync 0\t\n\tsync 0\n\t\nsync 0\xff\nsync \x000\nsync 0";
    let expected = "1: ok\n2: 1\n3: 1\n4: 1\n5: 1\n6: 1\n7: 1\n8: 1\n9: ok\n";
    assert_eq!(printed(script), expected);
}

#[test]
fn numbers_are_digits_alone_and_fit_32_bits() {
    check(
        "
        houses 1 => ok
        sync -0 => 1
        sync +0 => 1
        sync 0x0 => 1
        sync 4294967295 => 2
        sync 4294967296 => 1
        sync 18446744073709551616 => 1
        stop 0 4294967295 => 1
        stop 1 4294967295 => 2
        submit 0 0 1 0 0 1 0 4294967295 => ok
        submit 0 0 1 1 0 1 0 4294967296 => 1
        ",
    );
}

#[test]
fn orders_have_at_most_sixteen_reads_and_writes() {
    let pairs = |count| " 0 0".repeat(count);
    let most = format!("submit 0 0 1 0 16{} 16{}", pairs(16), pairs(16));
    let reads = format!("submit 0 0 1 1 17{} 0", pairs(17));
    let writes = format!("submit 9 0 1 1 0 17{}", pairs(17));
    let short = format!("submit 0 0 1 1 0 16{}", pairs(15));
    let long = format!("submit 0 0 1 1 0 16{}", pairs(17));
    let script = ["houses 1", &most, &reads, &writes, &short, &long].join("\n");
    let expected = "1: ok\n2: ok\n3: 1\n4: 1\n5: 1\n6: 1\n";
    assert_eq!(printed(script.as_bytes()), expected);
}

#[test]
fn many_scripts_start_anew() {
    let input = b"houses 1\nsync 0\n%\nsync 0\n%%\n %\n%\n#\n%\nhouses 1\n%";
    let mut out = Vec::new();
    play_many(input, &mut out).unwrap();
    let expected = b"1: ok\n2: ok\n%\n1: 2\n2: 1\n3: 1\n%\n%\n1: ok\n%\n";
    assert_eq!(out, expected);
    assert_eq!(printed(b"houses 1\n%\nsync 0\n"), "1: ok\n2: 1\n3: ok\n");
}
