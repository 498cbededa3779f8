//! Compares the library with the separately written implementation: random walks.

use hwmp_tests::answers::{
    ACCEPTED, BAD_ADDRESS, BAD_LIST, CLOCK_TOO_LARGE, NO_ROUTE, NOT_A_TABLE, OLD_CLOCK,
    TABLE_LENGTH, TOO_LONG,
};
use hwmp_tests::comparing::{Listed, Tally, Walk, Walks};
use hwmp_tests::library::Walked;
use hwmp_tests::random::Random;
use hwmp_tests::reference::table::CLOCK_MAX;
use hwmp_tests::reference::walk::MOST_POINTS;
use hwmp_tests::tables;

use crate::mesh::Mesh;

const MESHES: usize = 30_000;
const WALKS_PER_MESH: usize = 10;

/// How often each answer must have occurred, and each number of hops with it.
const LEAST_ANSWERED: u64 = 5_000;
const ANSWERS: [Listed; 1] = [(
    "walk",
    &[
        ACCEPTED,
        TABLE_LENGTH,
        CLOCK_TOO_LARGE,
        BAD_ADDRESS,
        BAD_LIST,
        NOT_A_TABLE,
        OLD_CLOCK,
        NO_ROUTE,
        TOO_LONG,
    ],
)];
const LEAST_HOPS: u64 = 30;
const HOPS: [Listed; 3] = [
    (
        MET,
        &[0, 1, 2, 3, 4, 5, 6, 7, 8, 9, 10, 11, 12, 13, 14, 15, 16],
    ),
    (
        NO_WAY,
        &[0, 1, 2, 3, 4, 5, 6, 7, 8, 9, 10, 11, 12, 13, 14, 15],
    ),
    (ROUND, &[2, 3, 4, 5, 6, 7, 8, 9, 10, 11, 12, 13, 14, 15, 16]),
];
const MET: &str = "hops with answer 0";
const NO_WAY: &str = "hops with answer 41";
const ROUND: &str = "hops with answer 42";

fn count_hops(walked: Walked, hops: &mut Tally) {
    let ends = [(ACCEPTED, MET), (NO_ROUTE, NO_WAY), (TOO_LONG, ROUND)];
    if let Some((_, name)) = ends.iter().find(|(answer, _)| *answer == walked.answer) {
        hops.count(name, walked.hops);
    }
}

fn some_walk(mesh: &Mesh, random: &mut Random) -> Walk {
    let mut tables = mesh.tables.clone();
    if random.one_in(6) {
        spoil(&mut tables, mesh.clock, random);
    }
    let mut walk = Walk {
        clock: some_clock(mesh, random),
        start: some_start(mesh, random),
        destination: some_destination(mesh, random),
        count: tables.len() as u32,
        tables: tables.concat(),
    };
    if random.one_in(16) {
        walk.count = some_other_count(walk.count, random);
    }
    if random.one_in(16) {
        resize(&mut walk, mesh, random);
    }
    walk
}

fn some_clock(mesh: &Mesh, random: &mut Random) -> u64 {
    let of_a_row = tables::some_clock(&mesh.tables[0], random);
    match random.below(16) {
        0 => random.pick(&[CLOCK_MAX + 1, 1 << 63, u64::MAX]),
        1 => of_a_row,
        2 => mesh.clock.saturating_sub(1),
        3 => mesh.clock + 1,
        _ => mesh.clock,
    }
}

/// Returns mostly a point.
fn some_start(mesh: &Mesh, random: &mut Random) -> [u8; 6] {
    let point = random.pick(&mesh.addresses);
    match random.below(24) {
        0 => tables::one_bit_off(point, random),
        1 => tables::not_individual(random).0,
        2 => random.pick(&mesh.destinations),
        _ => point,
    }
}

/// Returns mostly a destination for which there are rows.
fn some_destination(mesh: &Mesh, random: &mut Random) -> [u8; 6] {
    let point = random.pick(&mesh.addresses);
    match random.below(24) {
        0 => tables::not_individual(random).0,
        1 => tables::individual(random).0,
        2 => tables::one_bit_off(point, random),
        3 => tables::some_destination(&mesh.tables[0], random),
        4 => point,
        _ => random.pick(&mesh.destinations),
    }
}

/// Makes a table into octets that are not a table, gives two points one address, or sets a table's
/// clock ahead.
fn spoil(tables: &mut [Vec<u8>], clock: u64, random: &mut Random) {
    let [one, other] = [(); 2].map(|_| random.below(tables.len()));
    match random.below(6) {
        0 => tables[one] = tables::junk(tables[one].len(), random),
        1 => tables[one] = tables[other].clone(),
        2 => tables[one] = vec![0; tables[one].len()],
        3 => {
            let twice = tables[other][..6].to_vec();
            tables[one][..6].copy_from_slice(&twice);
        }
        4 => tables[one][16..24].copy_from_slice(&(clock + 1).to_le_bytes()),
        _ => tables::damage(&mut tables[one], random),
    }
}

/// Returns a wrong count. Some have the right count in their low bits, or give the right number of
/// octets only modulo 2^32.
fn some_other_count(count: u32, random: &mut Random) -> u32 {
    let any = random.number() as u32;
    random.pick(&[
        0,
        count - 1,
        count + 1,
        count + 256,
        count + (1 << 16),
        count + (1 << 27),
        MOST_POINTS as u32 + 1,
        u32::MAX,
        any,
    ])
}

/// Cuts the tables short or lengthens them. By whole tables they suit another count, which may
/// follow.
fn resize(walk: &mut Walk, mesh: &Mesh, random: &mut Random) {
    let (here, one) = (walk.tables.len(), mesh.tables[0].len());
    let lengths = [
        0,
        32,
        here - 1,
        here + 1,
        here - 32,
        here + 32,
        here - one,
        here + one,
        32 * mesh.count(),
        random.below(here + 1),
    ];
    walk.tables.resize(random.pick(&lengths), 0);
    if random.one_in(4) {
        walk.count = walk.count.wrapping_add(random.pick(&[1, u32::MAX]));
    }
}

#[test]
fn library_and_reference_agree() {
    let walks = &mut Walks::announced("walks", 0x0041_1778);
    let hops = &mut Tally::default();
    for _ in 0..MESHES {
        let mesh = Mesh::random(&mut walks.random);
        for _ in 0..WALKS_PER_MESH {
            let walk = some_walk(&mesh, &mut walks.random);
            count_hops(walks.compare(&walk), hops);
        }
    }
    walks.answers.report(&ANSWERS);
    hops.report(&HOPS);
    walks.answers.check(&ANSWERS, LEAST_ANSWERED);
    hops.check(&HOPS, LEAST_HOPS);
    println!("walks compared: {}", walks.answers.total());
}
