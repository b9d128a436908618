//! The worked cases A to G, one after the other in one script, with every answer and every byte
//! count worked out by hand.

use crate::transcript::check;

/// Two houses do an order over both.
const A: &str = "
    houses 2 => ok
    submit 0 0 1 0 0 2 5 3 65541 2 => ok
    hold 0 0 1 0 => ok
    vote 0 0 0 1 0 => ok
    rule 0 0 1 0 => 13
    hold 1 0 1 0 => ok
    vote 0 1 0 1 0 => ok
    rule 0 0 1 0 => ok
    learn 0 1 0 1 0 => ok
    learn 1 1 0 1 0 => ok
    show => ok
    house 0 start 1 file 67 safe 57
    shelf 5 3
    ruled 0 1 0
    house 1 start 1 file 39 safe 29
    shelf 65541 2
    done 1 0 1 0
";

/// Two orders clash, each is held by one house, and both are given up.
const B: &str = "
    submit 0 0 1 1 2 5 3 65541 2 2 5 2 65541 1 => ok
    submit 1 1 1 0 2 5 3 65541 2 2 5 2 65541 1 => ok
    hold 0 0 1 1 => ok
    hold 1 1 1 0 => ok
    hold 0 1 1 0 => 9
    hold 1 0 1 1 => 9
    giveup 0 0 1 1 => ok
    giveup 1 1 1 0 => ok
    learn 0 0 0 1 1 => ok
    learn 1 0 1 1 0 => ok
    show => ok
    house 0 start 1 file 121 safe 111
    shelf 5 3
    ruled 0 1 0
    house 1 start 1 file 93 safe 83
    shelf 65541 2
    done 1 0 1 0
";

/// The first of these again, which is done; then an order that saw what is no longer so.
const C: &str = "
    submit 0 0 1 2 2 5 3 65541 2 2 5 2 65541 1 => ok
    hold 0 0 1 2 => ok
    hold 1 0 1 2 => ok
    vote 0 0 0 1 2 => ok
    vote 0 1 0 1 2 => ok
    rule 0 0 1 2 => ok
    learn 0 1 0 1 2 => ok
    learn 1 1 0 1 2 => ok
    submit 1 1 1 1 1 5 3 0 => ok
    hold 0 1 1 1 => 10
    show => ok
    house 0 start 1 file 219 safe 209
    shelf 5 2
    ruled 0 1 0
    ruled 0 1 2
    house 1 start 1 file 147 safe 137
    shelf 65541 1
    asking 1 1 1
    done 1 0 1 0
    done 2 0 1 2
";

/// A house stops before it learns, comes up holding the order, and learns.
const D: &str = "
    submit 0 0 1 3 0 1 65542 9 => ok
    hold 1 0 1 3 => ok
    vote 0 1 0 1 3 => ok
    rule 0 0 1 3 => ok
    stop 1 0 => ok
    show => ok
    house 0 start 1 file 239 safe 239
    shelf 5 2
    ruled 0 1 0
    ruled 0 1 2
    ruled 0 1 3
    house 1 start 2 file 168 safe 168
    shelf 65541 1
    held 0 1 3 0 1 65542 9
    done 1 0 1 0
    done 2 0 1 2
    done 3 0 1 3
    learn 1 1 0 1 3 => ok
";

/// A home stops while it asks; asked in its next start, it tells no.
const E: &str = "
    submit 0 0 1 4 0 1 65543 1 => ok
    hold 1 0 1 4 => ok
    answer 0 0 1 4 => 14
    stop 0 0 => ok
    answer 0 0 1 4 => no
    learn 1 0 0 1 4 => ok
    show => ok
    house 0 start 2 file 240 safe 240
    shelf 5 2
    ruled 0 1 0
    ruled 0 1 2
    ruled 0 1 3
    house 1 start 2 file 208 safe 198
    shelf 65541 1
    shelf 65542 9
    done 1 0 1 0
    done 2 0 1 2
    done 3 0 1 3
";

/// An order without entries is ruled at once.
const G: &str = "
    submit 0 0 2 0 0 0 => ok
    rule 0 0 2 0 => ok
";

/// A done record is lost in a stop; the same yes is learnt again and the shelf changes once.
const F: &str = "
    submit 0 0 2 1 0 1 65544 7 => ok
    hold 1 0 2 1 => ok
    vote 0 1 0 2 1 => ok
    rule 0 0 2 1 => ok
    learn 1 1 0 2 1 => ok
    stop 1 0 => ok
    show => ok
    house 0 start 2 file 272 safe 272
    shelf 5 2
    ruled 0 1 0
    ruled 0 1 2
    ruled 0 1 3
    ruled 0 2 0
    ruled 0 2 1
    house 1 start 3 file 229 safe 229
    shelf 65541 1
    shelf 65542 9
    held 0 2 1 0 1 65544 7
    done 1 0 1 0
    done 2 0 1 2
    done 3 0 1 3
    done 4 0 2 0
    done 5 0 2 1
    learn 1 1 0 2 1 => ok
    learn 1 1 0 2 1 => 12
    show => ok
    house 0 start 2 file 272 safe 272
    shelf 5 2
    ruled 0 1 0
    ruled 0 1 2
    ruled 0 1 3
    ruled 0 2 0
    ruled 0 2 1
    house 1 start 3 file 239 safe 229
    shelf 65541 1
    shelf 65542 9
    shelf 65544 7
    done 1 0 1 0
    done 2 0 1 2
    done 3 0 1 3
    done 4 0 2 0
    done 5 0 2 1
";

#[test]
fn case_a() {
    check(A);
}

#[test]
fn cases_a_to_c() {
    check(&[A, B, C].concat());
}

#[test]
fn cases_a_to_g() {
    check(&[A, B, C, D, E, G, F].concat());
}
