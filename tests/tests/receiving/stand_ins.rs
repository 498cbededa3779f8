//! Wrong rules about marked numbers. Each stands in for the library, and tests must notice it.

use hwmp_tests::stand_ins::{
    ACCEPTS_A_MARKED_NUMBER, ACCEPTS_A_MARKED_NUMBER_OF_ALL_ONES,
    ACCEPTS_A_MARKED_NUMBER_OF_ITS_OWN, COMPARES_WITH_OWN_NUMBER, COMPARES_WITH_ROW_NUMBER,
    FILLS_IN_WHAT_IT_KNOWS, JUDGES_THE_FIRST_MARK, LOSES_THE_MARK, LOSES_THE_MARK_WITH_DO, Noticed,
    all_fail, each_is_noticed_by,
};

use crate::{damaged, marks, requests, short_loops};

/// The stand-ins, each with cases worked out by hand that it must fail.
const STAND_INS: [Noticed; 9] = [
    (
        &COMPARES_WITH_OWN_NUMBER,
        &[
            requests::a_marked_0_does_not_move_the_own_number,
            requests::marked_destinations_stand_beside_others,
            short_loops::a_number_does_not_fall_back_for_a_marked_0,
        ],
    ),
    (
        &COMPARES_WITH_ROW_NUMBER,
        &[
            requests::a_marked_0_is_answered_from_any_known_number,
            requests::marked_destinations_stand_beside_others,
        ],
    ),
    (
        &LOSES_THE_MARK,
        &[
            requests::only_an_active_row_of_known_number_answers,
            requests::every_point_replies_if_a_reply_is_wanted,
            requests::a_known_number_is_not_filled_in,
        ],
    ),
    (
        &LOSES_THE_MARK_WITH_DO,
        &[
            requests::a_marked_0_is_answered_from_any_known_number,
            requests::a_unicast_request_is_answered_like_others,
        ],
    ),
    (
        &FILLS_IN_WHAT_IT_KNOWS,
        &[requests::a_known_number_is_not_filled_in],
    ),
    (
        &ACCEPTS_A_MARKED_NUMBER,
        &[
            marks::a_marked_number_other_than_0_is_refused_with_10,
            marks::marked_numbers_are_judged_in_every_place,
        ],
    ),
    (
        &JUDGES_THE_FIRST_MARK,
        &[marks::marked_numbers_are_judged_in_every_place],
    ),
    (
        &ACCEPTS_A_MARKED_NUMBER_OF_ITS_OWN,
        &[marks::a_marked_number_other_than_0_is_refused_with_10],
    ),
    (
        &ACCEPTS_A_MARKED_NUMBER_OF_ALL_ONES,
        &[marks::a_marked_number_other_than_0_is_refused_with_10],
    ),
];

#[test]
fn cases_notice_each_wrong_rule() {
    STAND_INS.into_iter().for_each(all_fail);
}

#[test]
fn random_calls_notice_each_wrong_rule() {
    each_is_noticed_by(damaged::library_and_reference_agree, &STAND_INS);
}
