//! Many meshes, one after another.

use hwmp_tests::answers::{
    ABOUT_ITSELF, ACCEPTED, BAD_LIST, BAD_NEIGHBOUR, FROM_ITSELF, METRIC_TOO_LARGE, NO_MATCH,
    NO_ROOM, OLD_CLOCK, SHORT_OUTPUT, STALE,
};
use hwmp_tests::comparing::{Listed, Run, Tally};
use hwmp_tests::mesh::{ACCEPTED_BY_ID, LOOPS, WALKS};

use crate::mesh::RandomMesh;

/// How many elements are delivered in total.
const DELIVERIES: u64 = 6_000_000;

/// What the calls of a mesh can answer, and how often each answer must have occurred.
const LEAST_ANSWERED: u64 = 300;
const ANSWERS: [Listed; 6] = [
    ("fresh", &[ACCEPTED]),
    ("ask", &[ACCEPTED, SHORT_OUTPUT, BAD_LIST, ABOUT_ITSELF]),
    ("announce", &[ACCEPTED, SHORT_OUTPUT]),
    ("root request", &[ACCEPTED, SHORT_OUTPUT]),
    (
        "break",
        &[
            ACCEPTED,
            SHORT_OUTPUT,
            BAD_NEIGHBOUR,
            OLD_CLOCK,
            FROM_ITSELF,
        ],
    ),
    (
        "receive",
        &[
            ACCEPTED,
            SHORT_OUTPUT,
            METRIC_TOO_LARGE,
            OLD_CLOCK,
            FROM_ITSELF,
            ABOUT_ITSELF,
            STALE,
            NO_MATCH,
            NO_ROOM,
        ],
    ),
];

/// Loops must occur outside the premise. They show that the check can fail.
const LEAST_SEEN: u64 = 100;
const SEEN: [Listed; 3] = [
    (ACCEPTED_BY_ID, &[126, 130, 131, 132]),
    (WALKS, &[0, 1]),
    (LOOPS, &[0]),
];

/// How many walks must have been judged with the premise met.
const LEAST_WALKS: u64 = 20_000_000;

#[test]
fn points_agree_and_no_walk_meets_a_point_twice() {
    let run = &mut Run::announced("meshes", 0x0003_1778);
    let seen = &mut Tally::default();
    let mut meshes = 0;
    while run.answers.total_of("receive") < DELIVERIES {
        let mut random_mesh = RandomMesh::fresh(run, seen);
        for _ in 0..200 + run.random.below(600) {
            random_mesh.step(run, seen);
        }
        random_mesh.mesh.check_all_walks(run, seen);
        meshes += 1;
    }
    println!("meshes: {meshes}");
    run.answers.report(&ANSWERS);
    seen.report(&SEEN);
    run.answers.check(&ANSWERS, LEAST_ANSWERED);
    seen.check(&SEEN, LEAST_SEEN);
    assert!(seen.of(WALKS, 1) >= LEAST_WALKS);
}
