//! A house that begins as often as it may, and stays down after that.

use super::Writer;
use crate::limits::MAX_STARTS;

/// House 1 begins 65,535 times, and then stops inside a record; house 0 goes on.
pub fn all_starts() -> String {
    let mut script = Writer::default();
    script.add("houses 2");
    for stop in 1..MAX_STARTS {
        script.add("stop 1 0");
        if stop.is_multiple_of(16_384) {
            script.add("show");
        }
    }
    script.add(LAST_START);
    script.try_house_down("1 65535 2");
    script.add(OTHER_HOUSE);
    script.text
}

/// In its last start house 1 does what any house does.
const LAST_START: &str = "
    show
    submit 1 1 65535 65535 0 2 5 8 65541 9
    hold 0 1 65535 65535
    hold 1 1 65535 65535
    vote 1 0 1 65535 65535
    vote 1 1 1 65535 65535
    rule 1 1 65535 65535
    answer 1 1 65534 7
    answer 1 1 65535 7
    submit 1 1 65535 1 0 0
    submit 1 1 65535 2 0 1 65542 1
    submit 1 1 65536 3 0 0
    submit 0 0 1 0 0 2 65543 4 6 4
    hold 1 0 1 0
    hold 1 1 65535 2
    vote 1 1 1 65535 2
    learn 1 1 1 65535 65535
    show
    stop 1 11
    stop 1 4
    show
";

/// What house 1 sent before it stopped still arrives.
const OTHER_HOUSE: &str = "
    learn 1 1 1 65535 65535
    vote 0 1 0 1 0
    hold 0 0 1 0
    vote 0 0 0 1 0
    rule 0 0 1 0
    learn 0 1 0 1 0
    learn 0 1 1 65535 65535
    stop 0 3
    show
";
