//! Lines that are told apart by their first word or by one byte.

use crate::random::Random;
use crate::translator::LineKind;

/// What parts the lines of a table here.
const BAR: char = '|';

/// Lines that 31 and 32 refuse, the rest of each good or bad.
fn forbidden_lines(kind: LineKind) -> &'static str {
    match kind {
        LineKind::Version => "4|2|1|0|30|33|999999",
        LineKind::AxiomLayer => "0|1|5|10|0 x|0 |0  |1 -1|999999 \t",
        LineKind::AxiomCount => "1|1 x|1 |1 \r|2  |10|999999 0",
        LineKind::Effect => {
            "1 0 0 0 -1 0|1|1 |1 x|1 x 0 0|2  y|2 0 00 1|10 0 0 0|999999 0 0 0|1 0 -1 -1"
        }
        _ => "",
    }
}

/// Lines close to those, and close to one that is in order.
fn near_lines(kind: LineKind) -> &'static str {
    match kind {
        LineKind::Version => "4 x|4 |3 |3 3| 3| 4|03|04|3.1|-1|-3|+3|1000000|3\r|4\r||v3",
        LineKind::Metric => "0|1|2|10|999999|00|01|-1|1 0|1 |true",
        LineKind::AxiomLayer => {
            "0x|00|00 x|01 x|-2|-2 x|-1 |-1 x|-1 -1|-01|-10|1000000|1000000 x| 0| -1|-1\r|0\r|0\tx|\
            --1|-|- 1|+1||\u{2212}1"
        }
        LineKind::AxiomCount => {
            "0 |0 x|0 0|0x|00|-1|-1 x|1x|01|01 x|1000000|1000000 x|| 1| 0|1\r|0\r|1\t|-0|+0"
        }
        LineKind::Effect => {
            "1x 0 0 0|1\t0|01 0 -1 0|00 0 -1 0|0x 0 0 0|-1 0 -1 0|1000000 0 0 0| 1 0 0 0|0|0 |0 0|\
            0 0 -1|0 0 -1 |0 0 -1 0 |0 0 -1 0 0|0  0 -1 0|0 0  -1 0|0 -1 0 0|0 0 0 -1|0 0 -1 -1|\
            0 0 -01 0|0 0 -2 0|0 0 -0 0|0 0 - 0|0 0 +1 0|0 00 -1 0|0 0 -1 00|0 0 -1 0\r|\
            0 1000000 -1 0|0 0 1000000 0|0 0 -1 1000000|0 999999 -1 0|0 0 999999 0|0 0 -1 999999|\
            0 0 255 0|0 0 -1 256|"
        }
        _ => "",
    }
}

/// Lines for the kinds that have none of their own.
const OTHER_LINES: &str = "0|1|-1|0 0|0 0 -1 0|begin_rule";

pub fn has_telling_lines(kind: LineKind) -> bool {
    !near_lines(kind).is_empty()
}

/// All lines of a kind's own tables.
pub fn own_lines(kind: LineKind) -> Vec<&'static str> {
    forbidden_lines(kind).split(BAR).chain(near_lines(kind).split(BAR)).collect()
}

pub fn telling_line(random: &mut Random, kind: LineKind, _: &[u8]) -> Vec<u8> {
    let table = match (forbidden_lines(kind), near_lines(kind)) {
        ("", "") => OTHER_LINES,
        ("", near) => near,
        (forbidden, near) => random.pick(&[forbidden, near]),
    };
    let lines: Vec<&str> = table.split(BAR).collect();
    random.pick(&lines).into()
}
