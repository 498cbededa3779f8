//! How cases are listed: values that break a clause, and values just inside it.

use hwmp_tests::reference::table::Flaw;

use crate::sample::Sample;

/// What is done to the legal table, and the clause that this breaks, if any.
pub struct Case {
    pub clause: &'static str,
    pub change: Box<dyn Fn(&mut Sample)>,
    pub breaks: Option<Flaw>,
    pub two_rows: bool,
}

/// Cases as they are listed, clause by clause.
#[derive(Default)]
pub struct Cases {
    clause: &'static str,
    pub flaw: Option<Flaw>,
    pub list: Vec<Case>,
}

impl Cases {
    pub fn clause(&mut self, clause: &'static str, flaw: Flaw) {
        self.clause = clause;
        self.flaw = Some(flaw);
    }

    /// Lists fields that docs/PROTOCOL.md, 'Table', leaves free, so that no value of them may be
    /// refused.
    pub fn no_clause(&mut self, fields: &'static str) {
        self.clause = fields;
        self.flaw = None;
    }

    fn push(&mut self, breaks: Option<Flaw>, change: impl Fn(&mut Sample) + 'static) {
        self.list.push(Case {
            clause: self.clause,
            change: Box::new(change),
            breaks,
            two_rows: false,
        });
    }

    pub fn broken(&mut self, change: impl Fn(&mut Sample) + 'static) {
        self.push(self.flaw, change);
    }

    pub fn inside(&mut self, change: impl Fn(&mut Sample) + 'static) {
        self.push(None, change);
    }

    /// Lists values of the head, at an offset of the table.
    pub fn head(&mut self, at: usize, broken: &[&[u8]], inside: &[&[u8]]) {
        for value in broken.iter().map(|value| value.to_vec()) {
            self.broken(move |sample| sample.put(at, &value));
        }
        for value in inside.iter().map(|value| value.to_vec()) {
            self.inside(move |sample| sample.put(at, &value));
        }
    }

    /// Lists values of the row, at an offset of the row.
    pub fn row(&mut self, at: usize, broken: &[&[u8]], inside: &[&[u8]]) {
        for value in broken.iter().map(|value| value.to_vec()) {
            self.broken(move |sample| sample.put(sample.row + at, &value));
        }
        for value in inside.iter().map(|value| value.to_vec()) {
            self.inside(move |sample| sample.put(sample.row + at, &value));
        }
    }

    /// Lists values of a row of unknown number, in either status.
    pub fn unknown(&mut self, at: usize, broken: &[&[u8]]) {
        for status in [1, 2] {
            self.inside(move |sample| sample.unknown(status));
            for value in broken.iter().map(|value| value.to_vec()) {
                self.broken(move |sample| {
                    sample.unknown(status);
                    sample.put(sample.row + at, &value);
                });
            }
        }
    }

    /// Lists a second row that has the row's destination with one octet changed by `mask`.
    pub fn second(&mut self, breaks: Option<Flaw>, statuses: [u8; 2], octet: usize, mask: u8) {
        self.push(breaks, move |sample| {
            let mut destination = sample.row_destination();
            destination[octet] ^= mask;
            sample.put(sample.row, &statuses[..1]);
            sample.put(sample.second, &statuses[1..]);
            sample.put(sample.second + 4, &destination);
        });
        self.list.last_mut().unwrap().two_rows = true;
    }
}
