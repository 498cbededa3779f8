//! The premise of demand 3 (docs/PROTOCOL.md, 'Demands'), as `Mesh` keeps it.

use hwmp_tests::comparing::{Point, Run, Tally};
use hwmp_tests::library::Outcome;
use hwmp_tests::mesh::{Mesh, Sent, Window};
use hwmp_tests::received::Received;
use hwmp_tests::worked::address;

const HALF: u32 = 1 << 31;

const ASKING: usize = 0;
const OTHER: usize = 1;
const D: usize = 2;

#[test]
fn a_window_is_half_the_circle_at_most() {
    // Numbers in the order in which they come; whether all but the last meet the premise; whether
    // all meet it.
    let cases: [(&[u32], bool, bool); 8] = [
        (&[7], true, true),
        (&[0, HALF - 1], true, true),
        (&[0, HALF], true, false),
        (&[HALF, 0], true, false),
        (&[u32::MAX, 3, HALF - 2], true, true),
        (&[u32::MAX, 3, HALF - 1], true, false),
        (&[5, 2, u32::MAX, HALF + 6, HALF + 5], true, false),
        (&[0, HALF, 0], false, false),
    ];
    for (numbers, before, after) in cases {
        let mut window = Window::Empty;
        let (last, first) = numbers.split_last().unwrap();
        first.iter().for_each(|&number| window.note(number));
        assert_eq!(window.meets_premise(), before, "{numbers:?}");
        window.note(*last);
        assert_eq!(window.meets_premise(), after, "{numbers:?}");
    }
}

/// Makes a call that sends one frame. The comparison sometimes lends an output that is too short,
/// and the call is then made again.
fn sends(
    mesh: &mut Mesh,
    point: usize,
    run: &mut Run,
    call: impl Fn(&mut Point, &mut Run) -> Outcome,
) -> Sent {
    let seen = &mut Tally::default();
    let sent = (0..20).find_map(|_| mesh.call(point, run, seen, &call).pop());
    sent.expect("the call sends a frame")
}

fn hears(mesh: &mut Mesh, point: usize, sent: &Sent, run: &mut Run) -> Sent {
    let received = Received {
        clock: 0,
        transmitter: mesh.addresses()[sent.from],
        link_metric: 1,
        element: sent.element.clone(),
    };
    sends(mesh, point, run, |point, run| point.receive(&received, run))
}

/// The own number of D is half the circle away from 0, so every 0 that is carried for D ends the
/// premise. The mark of an ask keeps its 0 from being one. The error of a break has no mark.
#[test]
fn a_marked_0_is_not_carried_and_the_0_of_an_error_is() {
    let run = &mut Run::announced("marked and carried", 0x0004_1778);
    let addresses = [ASKING, OTHER, D].map(address).to_vec();
    let mut numbers = [7, 7, HALF].into_iter();
    let mesh = &mut Mesh::fresh(addresses, 4, |_| numbers.next().unwrap(), run);
    let items = [&[0][..], &address(D)].concat();
    sends(mesh, ASKING, run, |point, run| point.ask(1000, &items, run));
    assert!(mesh.meets_premise(D), "a marked 0 is carried");

    // D forwards an announcement, from which ASKING makes a row of unknown number for D.
    let announced = sends(mesh, OTHER, run, |point, run| point.announce(0, 1000, run));
    let forwarded = hears(mesh, D, &announced, run);
    hears(mesh, ASKING, &forwarded, run);
    assert!(mesh.meets_premise(D), "an unknown number is held");
    sends(mesh, ASKING, run, |point, run| {
        point.report_break(0, address(D), run)
    });
    assert!(!mesh.meets_premise(D), "the 0 of an error is not carried");
}
