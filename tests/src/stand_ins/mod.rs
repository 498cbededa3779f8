//! Stand-ins for the library: the reference with one wrong rule each about marked numbers. A test
//! that passes with a stand-in would not notice its wrong rule in the library either.

mod asking;
mod receiving;

use std::cell::Cell;
use std::panic::{catch_unwind, set_hook, take_hook};
use std::sync::Once;

use crate::implementation::{Implementation, LIBRARY, REFERENCE};
use crate::library::Outcome;
use crate::reference::cut_frames;
use crate::reference::element::{Destination, Element};

pub use asking::{MARKS_A_KNOWN_0, MARKS_NO_ROOT_REQUEST, MARKS_NO_ROW};
pub use receiving::{
    ACCEPTS_A_MARKED_NUMBER, ACCEPTS_A_MARKED_NUMBER_OF_ALL_ONES,
    ACCEPTS_A_MARKED_NUMBER_OF_ITS_OWN, COMPARES_WITH_OWN_NUMBER, COMPARES_WITH_ROW_NUMBER,
    FILLS_IN_WHAT_IT_KNOWS, JUDGES_THE_FIRST_MARK, LOSES_THE_MARK, LOSES_THE_MARK_WITH_DO,
};

thread_local! {
    static TESTED: Cell<&'static Implementation> = const { Cell::new(&LIBRARY) };
    static MAY_FAIL: Cell<bool> = const { Cell::new(false) };
}

/// Returns what is tested: the library, unless something stands in for it.
pub fn tested() -> &'static Implementation {
    TESTED.get()
}

/// Returns what is tested, and the reference.
pub fn both() -> [&'static Implementation; 2] {
    [tested(), &REFERENCE]
}

/// A stand-in, and tests that must fail with it.
pub type Noticed = (&'static Implementation, &'static [fn()]);

/// Each test must fail if the stand-in takes the library's place. With the right rules it must
/// pass, because otherwise its failure would show nothing.
pub fn all_fail((stand_in, tests): Noticed) {
    for &test in tests {
        let passes = !fails_with(&REFERENCE, test);
        assert!(passes, "a test for {} fails anyway", stand_in.name);
        assert!(fails_with(stand_in, test), "{}: unnoticed", stand_in.name);
    }
}

/// The comparison must fail with each of the stand-ins.
pub fn each_is_noticed_by(comparison: fn(), stand_ins: &[Noticed]) {
    for (stand_in, _) in stand_ins {
        let noticed = fails_with(stand_in, comparison);
        assert!(noticed, "{}: unnoticed", stand_in.name);
    }
}

/// Reports whether the test fails if the stand-in takes the library's place.
fn fails_with(stand_in: &'static Implementation, test: fn()) -> bool {
    hide_failures_that_may_be();
    let library = TESTED.replace(stand_in);
    MAY_FAIL.set(true);
    let failed = catch_unwind(test).is_err();
    MAY_FAIL.set(false);
    TESTED.set(library);
    failed
}

/// Keeps the failures of stand-ins out of the output, in which a reader looks for those of the
/// library.
fn hide_failures_that_may_be() {
    static HIDDEN: Once = Once::new();
    HIDDEN.call_once(|| {
        let report = take_hook();
        set_hook(Box::new(move |failure| {
            if !MAY_FAIL.get() {
                report(failure);
            }
        }));
    });
}

/// Returns the element with each destination changed by its place, if it is a RREQ.
fn with_destinations(
    element: &[u8],
    change: impl Fn(usize, Destination) -> Destination,
) -> Vec<u8> {
    let mut octets = element.to_vec();
    if let Ok(Element::Rreq(rreq)) = Element::read(element) {
        let list_at = octets.len() - rreq.list().len();
        let (places, _) = octets[list_at..].as_chunks_mut();
        for (place, octets) in places.iter_mut().enumerate() {
            *octets = change(place, Destination::decode(octets)).encode();
        }
    }
    octets
}

/// Changes each destination of each RREQ that a call sent.
fn change_sent(output: &mut [u8], outcome: Outcome, change: impl Fn(Destination) -> Destination) {
    let sent = &mut output[..outcome.octets as usize];
    let changed: Vec<Vec<u8>> = cut_frames(sent)
        .map(|(receiver, element)| {
            let element = with_destinations(element, |_, destination| change(destination));
            [&receiver[..], &element].concat()
        })
        .collect();
    sent.copy_from_slice(&changed.concat());
}

fn marked(destination: Destination) -> Destination {
    Destination {
        flags: destination.flags | Destination::NUMBER_UNKNOWN,
        ..destination
    }
}

fn unmarked(destination: Destination) -> Destination {
    Destination {
        flags: destination.flags & !Destination::NUMBER_UNKNOWN,
        ..destination
    }
}
