//! The worked case of docs/PROTOCOL.md, 'Bench'.

use hwmp_tests::worked::address;

use crate::commands::{ask, deliver, link, walk};
use crate::script::{LIFETIME, Step, input, output, points, prints, prints_all, script};

/// Returns the worked case, command by command with its lines.
pub fn worked_case() -> Vec<Step> {
    script(
        points(3),
        &[
            (link(0, 1, 10), "3 0 0"),
            (link(1, 2, 20), "3 0 0"),
            (ask(0, 1, address(2), LIFETIME), "4 0 1"),
            (deliver(0, 1), "6 0 1"),
            (deliver(1, 2), "6 0 1"),
            (deliver(2, 1), "6 0 1"),
            (deliver(3, 0), "6 0 0"),
            (walk(0, 2), "8 0 2"),
            (deliver(3, 0), "6 25 0"),
        ],
    )
}

#[test]
fn the_case_of_document_01() {
    let case = worked_case();
    let whole =
        "1 0 0\n1 0 0\n1 0 0\n3 0 0\n3 0 0\n4 0 1\n6 0 1\n6 0 1\n6 0 1\n6 0 0\n8 0 2\n6 25 0\n";
    assert_eq!(output(&case), whole);
    prints("case", &case);
}

/// The end of the input is no fault between two commands. Within a command it is.
#[test]
fn the_case_cut_at_every_octet() {
    let case = worked_case();
    let whole = input(&case);
    let mut begun = 0;
    for place in 0..case.len() {
        let length = case[place].0.len();
        let lines = output(&case[..place]);
        prints_all("cut between", &whole[..begun], &lines);
        for part in 1..length {
            let ended = format!("{lines}E {begun}\n");
            prints_all("cut within", &whole[..begun + part], &ended);
        }
        begun += length;
    }
    assert_eq!(begun, whole.len());
}
