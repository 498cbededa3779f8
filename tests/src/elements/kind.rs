//! The layouts of docs/PROTOCOL.md, 'Elements', as lists of fields, written separately from the
//! reference's.

use std::ops::RangeInclusive;

use Field::{Address, Number, Octet};

/// What a field holds. It decides how many octets the field takes.
#[derive(Clone, Copy)]
pub enum Field {
    Octet,
    Number,
    Address,
}

impl Field {
    fn octets(self) -> usize {
        match self {
            Octet => 1,
            Number => 4,
            Address => 6,
        }
    }
}

fn width(fields: &[Field]) -> usize {
    fields.iter().map(|field| field.octets()).sum()
}

/// One of the four types.
pub struct Kind {
    pub name: &'static str,
    pub id: u8,
    pub(super) fields: &'static [Field],
    pub(super) list: Option<List>,
}

/// The count octet and the entries after it.
pub(super) struct List {
    pub(super) entry: &'static [Field],
    least: usize,
    most: usize,
}

pub const KINDS: [Kind; 4] = [
    Kind {
        name: "RANN",
        id: 126,
        fields: &[Octet, Octet, Octet, Address, Number, Number, Number],
        list: None,
    },
    Kind {
        name: "RREQ",
        id: 130,
        fields: &[Octet, Octet, Octet, Number, Address, Number, Number, Number],
        list: Some(List {
            entry: &[Octet, Address, Number],
            least: 1,
            most: 20,
        }),
    },
    Kind {
        name: "RREP",
        id: 131,
        fields: &[
            Octet, Octet, Octet, Address, Number, Number, Number, Address, Number,
        ],
        list: Some(List {
            entry: &[Address, Number],
            least: 0,
            most: 22,
        }),
    },
    Kind {
        name: "RERR",
        id: 132,
        fields: &[Octet],
        list: Some(List {
            entry: &[Address, Number],
            least: 1,
            most: 25,
        }),
    },
];

impl Kind {
    /// Returns the type that the first octet names.
    pub fn of(octets: &[u8]) -> Option<&'static Kind> {
        let id = octets.first()?;
        KINDS.iter().find(|kind| kind.id == *id)
    }

    /// Returns the legal counts of entries. A type without a list has only 0.
    pub fn counts(&self) -> RangeInclusive<usize> {
        match &self.list {
            Some(list) => list.least..=list.most,
            None => 0..=0,
        }
    }

    /// Returns the place of the count octet in the element.
    pub fn count_at(&self) -> Option<usize> {
        self.list.as_ref().map(|_| 2 + width(self.fields))
    }

    /// Returns the place where the list begins, or would begin if the type had one.
    pub(super) fn list_at(&self) -> usize {
        2 + width(self.fields) + usize::from(self.list.is_some())
    }
}

impl List {
    pub(super) fn entry_octets(&self) -> usize {
        width(self.entry)
    }

    /// Returns the place of the address in an entry.
    pub(super) fn address_at(&self) -> usize {
        let before = self
            .entry
            .iter()
            .take_while(|field| !matches!(field, Address));
        before.map(|field| field.octets()).sum()
    }
}
