//! Reports the thirty days, and checks that enough happened in them to mean something.

use std::collections::BTreeMap;
use std::fmt::Display;

use super::sending::{DAMAGED, LATE, LOST, OUT_OF_ORDER, REPEATED, STRAY};
use super::{DAY, Days, MOST_POINTS, WRAPPED, head};
use crate::answers::{
    ABOUT_ITSELF, ACCEPTED, BAD_ADDRESS, BAD_COUNT, BAD_LIST, BAD_NEIGHBOUR, CLOCK_TOO_LARGE,
    ELEMENT_LENGTH, FROM_ITSELF, LOW_TTL, METRIC_TOO_LARGE, NO_LIFETIME, NO_LINK, NO_MATCH,
    NO_NEXT_HOP, NO_ROOM, NO_ROUTE, OLD_CLOCK, SHORT_OUTPUT, STALE, TOO_MANY_HOPS, UNKNOWN_ID,
};
use crate::comparing::Listed;
use crate::mesh::{ACCEPTED_BY_ID, LOOPS, WALKS};

/// What the calls can answer, and how often each answer must have occurred.
const LEAST_ANSWERED: u64 = 5;
const ANSWERS: [Listed; 7] = [
    ("fresh", &[ACCEPTED]),
    ("ask", &[ACCEPTED, SHORT_OUTPUT, BAD_LIST, ABOUT_ITSELF]),
    ("announce", &[ACCEPTED, SHORT_OUTPUT]),
    ("root request", &[ACCEPTED, SHORT_OUTPUT]),
    ("break", &[ACCEPTED, SHORT_OUTPUT, OLD_CLOCK]),
    ("next hop", &[ACCEPTED, BAD_ADDRESS, OLD_CLOCK, NO_NEXT_HOP]),
    (
        "receive",
        &[
            ACCEPTED,
            SHORT_OUTPUT,
            CLOCK_TOO_LARGE,
            BAD_NEIGHBOUR,
            NO_LINK,
            ELEMENT_LENGTH,
            UNKNOWN_ID,
            BAD_COUNT,
            BAD_ADDRESS,
            BAD_LIST,
            NO_LIFETIME,
            TOO_MANY_HOPS,
            METRIC_TOO_LARGE,
            LOW_TTL,
            OLD_CLOCK,
            FROM_ITSELF,
            ABOUT_ITSELF,
            STALE,
            NO_MATCH,
            NO_ROOM,
        ],
    ),
];
const WALKED: [Listed; 1] = [(
    "walk",
    &[ACCEPTED, BAD_ADDRESS, BAD_LIST, OLD_CLOCK, NO_ROUTE],
)];

/// What else must have occurred, and how often.
const LEAST_SEEN: u64 = 100;
const BAD_SORTS: [&str; 6] = [LOST, LATE, REPEATED, OUT_OF_ORDER, STRAY, DAMAGED];
const IDS: [u32; 4] = [126, 130, 131, 132];
const LEAST_HOPS: u32 = 8;

impl Days {
    /// Prints one text, because two stretches may run at the same time.
    pub fn report(&self, name: &str) {
        let days = (self.last - self.first) / DAY;
        let mut answers = self.answers();
        let calls: u64 = answers.values().sum();
        let accepted = answers.remove(&ACCEPTED).unwrap_or(0);
        let no_route = answers.remove(&NO_ROUTE).unwrap_or(0);
        let lines = [
            format!("days: {days}, from clock {} to {}", self.first, self.last),
            format!("calls: {calls}, accepted: {accepted}"),
            format!("walks without a route: {no_route}"),
            format!("refused: {}", listed(answers)),
            format!(
                "elements accepted, by ID: {}",
                listed(self.accepted_by_id())
            ),
            format!("frames: {}", self.frames),
            format!("deliveries: {}", listed(self.bad_deliveries())),
            format!("own numbers past 4294967295: {}", self.wraps()),
            format!("walks along valid rows: {}", self.seen.total_of(WALKS)),
            format!("longest of these: {} hops", self.mesh.most_hops),
            format!("expired rows met on these: {}", self.mesh.expired_met),
            format!("longest walk by call: {} hops", self.most_hops),
            format!("loops found: {}", self.seen.total_of(LOOPS)),
        ];
        println!("{name}:\n  {}", lines.join("\n  "));
    }

    /// Checks that everything occurred that must occur in these days.
    pub fn check(&self) {
        self.run.answers.check(&ANSWERS, LEAST_ANSWERED);
        self.walks.answers.check(&WALKED, LEAST_ANSWERED);
        often("elements accepted", self.accepted_by_id());
        often("deliveries", self.bad_deliveries());
        often("rows", [("expired", self.mesh.expired_met)]);
        assert_eq!(self.wraps(), MOST_POINTS as u64, "numbers past the largest");
        assert!(self.most_hops >= LEAST_HOPS, "{} hops", self.most_hops);
        assert_eq!(self.seen.total_of(LOOPS), 0, "loops");
        self.check_last_clock();
    }

    fn check_last_clock(&self) {
        for point in 0..MOST_POINTS {
            let clock = head(&self.mesh, point).latest_clock;
            assert_eq!(clock, self.last, "latest clock of point {point}");
        }
    }

    /// Returns how often each answer was given, by all calls together.
    fn answers(&self) -> BTreeMap<u32, u64> {
        let mut answers = self.run.answers.by_outcome();
        for (answer, count) in self.walks.answers.by_outcome() {
            *answers.entry(answer).or_default() += count;
        }
        answers
    }

    fn accepted_by_id(&self) -> [(u32, u64); 4] {
        IDS.map(|id| (id, self.seen.of(ACCEPTED_BY_ID, id)))
    }

    fn bad_deliveries(&self) -> [(&str, u64); 6] {
        BAD_SORTS.map(|sort| (sort, self.seen.total_of(sort)))
    }

    /// Returns how many own numbers passed from the largest to 0. None can do so twice.
    fn wraps(&self) -> u64 {
        self.seen.total_of(WRAPPED)
    }
}

fn listed<T: Display>(counts: impl IntoIterator<Item = (T, u64)>) -> String {
    let counts = counts.into_iter();
    let texts: Vec<String> = counts
        .map(|(what, count)| format!("{what} x {count}"))
        .collect();
    texts.join(", ")
}

fn often<T: Display>(of: &str, counts: impl IntoIterator<Item = (T, u64)>) {
    for (what, count) in counts {
        assert!(count >= LEAST_SEEN, "{of}: {what} only {count} times");
    }
}
