//! What ends a run, and what does not, case by case.

use hwmp_tests::worked::{GROUP, STRANGER, address};

use crate::commands::{UNKNOWN, advance, announce, ask, deliver, link, point, report_break, walk};
use crate::script::{LIFETIME, ends, input, line, output, points, prints, prints_all, script};
use crate::worked::worked_case;

#[test]
fn no_input_gives_no_output() {
    prints("empty", &[]);
}

#[test]
fn each_command_is_cut_at_every_octet() {
    let first = line(2);
    let begun = input(&first);
    let ended = format!("{}E {}\n", output(&first), begun.len());
    let commands = [
        point(address(2), 0),
        advance(1),
        link(0, 1, 3),
        ask(0, 0, address(1), LIFETIME),
        announce(0, LIFETIME),
        deliver(0, 1),
        report_break(0, 1),
        walk(0, 1),
    ];
    let lengths = commands.each_ref().map(Vec::len);
    assert_eq!(lengths, [11, 5, 7, 13, 6, 4, 3, 3]);
    for command in commands {
        for part in 1..command.len() {
            let input = [&begun, &command[..part]].concat();
            prints_all("cut", &input, &ended);
        }
    }
}

#[test]
fn an_unknown_command_ends_the_run() {
    for unknown in UNKNOWN.into_iter().chain(9..=255) {
        ends("first", &[], &[unknown]);
    }
    for unknown in UNKNOWN {
        ends("later", &line(2), &[unknown]);
        ends("after a whole case", &worked_case(), &[unknown]);
    }
}

/// Points are numbered from 0 in the order in which they are added, and none is there before.
#[test]
fn a_point_that_is_not_there_ends_the_run() {
    for count in [0, 1, 2, 15, 16] {
        let first = points(count);
        for bad in [count, 16, 255] {
            let ends_with = |command: Vec<u8>| ends("no such point", &first, &command);
            ends_with(link(bad, bad, 1));
            ends_with(ask(bad, 0, STRANGER, LIFETIME));
            ends_with(announce(bad, LIFETIME));
            ends_with(report_break(bad, bad));
            ends_with(walk(bad, bad));
            if count > 0 {
                for [one, other] in [[0, bad], [bad, 0]] {
                    ends_with(link(one, other, 1));
                    ends_with(report_break(one, other));
                    ends_with(walk(one, other));
                }
            }
        }
    }
    let sent = script(points(2), &[(announce(0, LIFETIME), "5 0 1")]);
    for bad in [2, 16, 255] {
        ends("delivered to nobody", &sent, &deliver(0, bad));
    }
}

/// A frame's number has two octets.
#[test]
fn a_frame_that_is_not_there_ends_the_run() {
    ends("none yet", &line(2), &deliver(0, 1));
    let sent = script(line(2), &[(announce(0, LIFETIME), "5 0 1")]);
    for bad in [1, 2, 127, 128, 255, 256, 512, 1 << 15, 65_535] {
        ends("beyond", &sent, &deliver(bad, 1));
    }
    let heard = script(sent, &[(deliver(0, 1), "6 0 1"), (deliver(1, 0), "6 24 0")]);
    prints("all there", &heard);
    for bad in [2, 256, 257] {
        ends("beyond", &heard, &deliver(bad, 0));
    }
}

/// A refused point is not added, whatever its number.
#[test]
fn a_refused_point_gets_no_number() {
    for bad in [GROUP, [0; 6], [0xFF; 6]] {
        let refused = [(point(bad, 7), "1 9 0")];
        prints("refused", &refused);
        ends("not added", &refused, &announce(0, LIFETIME));
        let first = script(refused.to_vec(), &points(1));
        let called = script(first, &[(announce(0, LIFETIME), "5 0 1")]);
        prints("the next gets its number", &called);
        ends("only one", &called, &announce(1, LIFETIME));
    }
}

/// A 17th point ends the run, even if it would be refused. Refused points before it do not count.
#[test]
fn the_17th_point_ends_the_run() {
    let all = points(16);
    prints("16", &script(all.clone(), &[(walk(15, 15), "8 0 0")]));
    ends("17th", &all, &point(STRANGER, 0));
    ends("17th would be refused", &all, &point(GROUP, 0));
    ends("17th has an address again", &all, &point(address(3), 0));
    let mut with_refused = vec![(point(GROUP, 0), "1 9 0"); 3];
    with_refused.extend(all);
    prints("16 and some refused", &with_refused);
    ends(
        "17th after refused ones",
        &with_refused,
        &point(STRANGER, 0),
    );
}

/// The bench keeps 128 frames. A command that emits more ends the run, even if some of its frames
/// fit. A command that emits none does not.
#[test]
fn the_129th_frame_ends_the_run() {
    let sent = |count| {
        let announced = vec![(announce(0, LIFETIME), "5 0 1"); count];
        script(line(3), &announced)
    };
    let full = sent(128);
    prints("128", &full);
    ends("129th announced", &full, &announce(1, LIFETIME));
    ends("129th asked", &full, &ask(0, 0, STRANGER, LIFETIME));
    ends("129th passed on", &full, &deliver(127, 1));
    let silent = [
        (announce(0, 0), "5 11 0"),
        (ask(0, 4, STRANGER, LIFETIME), "4 10 0"),
        (deliver(127, 2), "6 5 0"),
        (report_break(0, 1), "7 0 0"),
        (walk(0, 2), "8 41 0"),
        (advance(5), "2 0 0"),
    ];
    let full = script(full, &silent);
    prints("silent ones after 128", &full);
    ends("129th after silent ones", &full, &announce(2, LIFETIME));
    // Point 1 knows point 0. Asked for it by point 2 with RF, point 1 replies and forwards the
    // request: two frames.
    let known = |count| {
        let asked = [
            (deliver(0, 1), "6 0 1"),
            (ask(2, 2, address(0), LIFETIME), "4 0 1"),
        ];
        script(sent(count), &asked)
    };
    let two = (deliver(125, 1), "6 0 2");
    prints(
        "127th and 128th",
        &script(known(124), std::slice::from_ref(&two)),
    );
    ends("128th and 129th", &known(125), &deliver(126, 1));
    let lost = script(known(126), &[(walk(1, 0), "8 0 1")]);
    ends("129th of a break", &lost, &report_break(1, 0));
}
