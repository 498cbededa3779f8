//! Wrong rules about the mark of asks and root requests. Each stands in for the library, and tests
//! must notice it.

use hwmp_tests::stand_ins::{
    MARKS_A_KNOWN_0, MARKS_NO_ROOT_REQUEST, MARKS_NO_ROW, Noticed, all_fail, each_is_noticed_by,
};

use crate::{asking, originating, reading_back};

/// The stand-ins, each with cases worked out by hand that it must fail.
const STAND_INS: [Noticed; 3] = [
    (
        &MARKS_A_KNOWN_0,
        &[asking::only_an_unknown_number_is_marked],
    ),
    (
        &MARKS_NO_ROW,
        &[
            asking::only_an_unknown_number_is_marked,
            asking::an_ask_octet_by_octet,
        ],
    ),
    (
        &MARKS_NO_ROOT_REQUEST,
        &[
            originating::a_root_request_octet_by_octet,
            originating::flags_of_a_root_request_are_0_1_4_or_5,
        ],
    ),
];

#[test]
fn cases_notice_each_wrong_rule() {
    STAND_INS.into_iter().for_each(all_fail);
}

#[test]
fn random_calls_notice_each_wrong_rule() {
    each_is_noticed_by(
        reading_back::frames_are_read_back_as_they_were_meant,
        &STAND_INS,
    );
}
