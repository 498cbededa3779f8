//! Streams at whose borders a program could lose octets: long ones, ones that come in pieces, and
//! ones from a file. They include the only streams long enough for the clock to reach its end.

use std::time::Duration;

use hwmp_tests::random::Random;
use hwmp_tests::reference::bench::MOST_FRAMES;
use hwmp_tests::reference::walk::MOST_POINTS;
use hwmp_tests::tables;
use hwmp_tests::worked::{GROUP, address};

use crate::commands::{advance, announce, deliver, link, point, walk};
use crate::lives::some_life;
use crate::program::Program;
use crate::script::{input, prints_all};
use crate::worked::worked_case;

/// Sizes in which a program may read its input.
const BLOCKS: [usize; 9] = [256, 512, 1024, 2048, 4096, 8192, 16_384, 32_768, 65_536];

const PAUSE: Duration = Duration::from_micros(300);

fn whole_case() -> Vec<u8> {
    input(&worked_case())
}

/// Returns commands of `length` octets in total that add no point, frame or time. They have 5 or 11
/// octets, so that any length from 40 on is possible.
fn filler(length: usize) -> Vec<u8> {
    let refused =
        (0..5).find(|count| length >= 11 * count && (length - 11 * count).is_multiple_of(5));
    let refused = refused.expect("a length from 40 on");
    let mut octets = point(GROUP, 7).repeat(refused);
    octets.extend(advance(0).repeat((length - octets.len()) / 5));
    assert_eq!(octets.len(), length);
    octets
}

/// The worked case, with the end of each block at each of its octets, followed by a command that
/// ends the run, so that its offset is seen too. It comes from a file, because a read from a pipe
/// may get less than a block.
#[test]
fn no_octet_is_lost_at_the_end_of_a_block() {
    let (program, case) = (Program::named(), whole_case());
    for block in BLOCKS {
        for before in 0..=case.len() {
            let input = [filler(block - before), case.clone(), vec![9]].concat();
            program.agrees_from_file(&input, &format!("{before} octets before {block}"));
        }
    }
}

/// The worked case, with the end of a piece at each of its octets.
#[test]
fn no_octet_is_lost_between_two_pieces() {
    let (program, case) = (Program::named(), whole_case());
    let input = [&case[..], &[9]].concat();
    for length in 0..=case.len() {
        let (piece, rest) = input.split_at(length);
        program.agrees_in_pieces(&[piece, rest], PAUSE, &format!("{length} octets before"));
    }
}

/// Inputs with about as many octets as fit into some blocks.
#[test]
fn inputs_may_end_near_the_end_of_a_block() {
    let program = Program::named();
    for block in [4096, 65_536] {
        for blocks in 1..=3 {
            for length in blocks * block - 6..=blocks * block + 6 {
                program.agrees_from_file(&filler(length), &format!("{length} octets"));
                let cut = &filler(length + 3)[..length];
                program.agrees_from_file(cut, &format!("{length} octets, cut"));
            }
        }
    }
}

/// Returns a stream with commands of many lengths. It delivers no more once only few more frames
/// fit, so that the run does not end.
fn some_long_life(random: &mut Random) -> Vec<u8> {
    let mut life = some_life(random);
    while life.has_ended() {
        life = some_life(random);
    }
    let length = 70_000 + random.below(70_000);
    while life.octets.len() < length {
        let [one, other] = [(); 2].map(|_| random.below(life.points()) as u8);
        let frames = life.frames();
        let command = match random.below(8) {
            0 if life.points() < MOST_POINTS => point(tables::not_individual(random).0, 1),
            1 => advance(random.below(2) as u32),
            2 => link(one, other, random.below(9) as u32),
            3 => announce(one, 0),
            4 | 5 if (1..MOST_FRAMES - 8).contains(&frames) => {
                deliver(random.below(frames) as u16, one)
            }
            _ => walk(one, other),
        };
        life.push(&command).expect("nothing that ends the run");
    }
    life.octets
}

/// The ends of blocks lie anywhere in these streams.
#[test]
fn long_lives_are_the_same() {
    let program = Program::named();
    let random = &mut Random::announced("long lives", 0x1008_1778);
    for _ in 0..40 {
        program.agrees(&some_long_life(random), "long life");
    }
}

/// Whatever piece of a command a read gets, the rest of the command follows.
#[test]
fn input_may_come_in_pieces() {
    let program = Program::named();
    let random = &mut Random::announced("pieces", 0x2008_1778);
    let case = whole_case();
    let octets: Vec<_> = case.chunks(1).collect();
    program.agrees_in_pieces(&octets, PAUSE, "octet by octet");
    for _ in 0..60 {
        let life = some_life(random);
        let mut rest = &life.octets[..life.octets.len().min(600)];
        let mut pieces = Vec::new();
        while !rest.is_empty() {
            let (piece, others) = rest.split_at((1 + random.below(24)).min(rest.len()));
            pieces.push(piece);
            rest = others;
        }
        program.agrees_in_pieces(&pieces, PAUSE, "in pieces");
    }
}

#[test]
fn input_may_be_a_file() {
    let program = Program::named();
    let random = &mut Random::announced("files", 0x3008_1778);
    for _ in 0..60 {
        let mut input = filler(random.pick(&[4096, 8192, 65_536]) - random.below(200));
        input.extend(&some_life(random).octets);
        program.agrees_from_file(&input, "from a file");
    }
    assert_eq!(program.output_from_file(&[]), "");
}

/// How many of the longest advances leave the clock 65,535 milliseconds below its end.
const ADVANCES: usize = 65_536;

/// 2^48 - 1 is the last clock: 65,536 times 2^32 - 1, and 65,535.
#[test]
fn the_clock_ends_at_2_to_the_48() {
    let most = advance(u32::MAX).repeat(ADVANCES);
    let lines = "2 0 0\n".repeat(ADVANCES);
    let prints = |commands: &[Vec<u8>], last: &str| {
        let input = [&most, &commands.concat()[..]].concat();
        let expected = format!("{lines}{last}");
        prints_all("at the end", &input, &expected);
    };
    let end = 5 * ADVANCES;
    prints(&[], "");
    prints(&[advance(u32::MAX), advance(0)], &format!("E {end}\n"));
    prints(&[advance(65_536)], &format!("E {end}\n"));
    let at_end = "2 0 0\n2 0 0\n";
    let ended = format!("{at_end}E {}\n", end + 10);
    prints(&[advance(65_535), advance(0), advance(1)], &ended);
    prints(&[advance(65_535), advance(0), advance(u32::MAX)], &ended);
    // Calls also get the last clock, and rows outlive it.
    let mesh = [
        point(address(0), 0),
        point(address(1), 0),
        link(0, 1, 3),
        announce(0, u32::MAX),
        deliver(0, 1),
        walk(1, 0),
        advance(1),
    ];
    let lasting = [&[advance(65_535)], &mesh[..]].concat();
    let printed = "2 0 0\n1 0 0\n1 0 0\n3 0 0\n5 0 1\n6 0 1\n8 0 1\n";
    let before_last = mesh[..6].concat().len();
    prints(&lasting, &format!("{printed}E {}\n", end + 5 + before_last));
}

/// At clocks beyond 32 bits, a row learnt before still expires when it must.
#[test]
fn a_way_lasts_across_4_294_967_295() {
    for lifetime in [2, u32::MAX] {
        let commands = [
            advance(u32::MAX),
            point(address(0), 0),
            point(address(1), 0),
            link(0, 1, 3),
            announce(0, lifetime),
            deliver(0, 1),
            walk(1, 0),
            advance(1),
            walk(1, 0),
            advance(lifetime - 2),
            walk(1, 0),
            advance(1),
            walk(1, 0),
        ];
        let lines = "2 0 0\n1 0 0\n1 0 0\n3 0 0\n5 0 1\n6 0 1\n8 0 1\n2 0 0\n8 0 1\n2 0 0\n8 0 1\n2 0 0\n8 41 0\n";
        prints_all("across", &commands.concat(), lines);
    }
}
