//! The location that has a given record: the proved library looks for it in the table.

use crate::automaton::Automaton;
use crate::listing::Listing;
use crate::record::Record;
use crate::show::{Kind, Show};
use crate::source::{Failure, Source};
use crate::style::paragraph;

/// What is printed, and the number of the location, if one has the record.
pub struct Found {
    pub text: String,
    pub number: Option<usize>,
}

/// How a location is shown; the listing's automaton has the tables.
pub struct Find<'a> {
    pub show: Show<'a>,
}

impl Find<'_> {
    /// The location with this record, as it is shown by its number, or that there is none.
    pub fn record(&self, record: &Record) -> Result<Found, Failure> {
        let Listing { source, automaton: Automaton { tables, .. }, .. } = self.show.listing;
        let [locations, _] = tables.counts();
        let number = currantplane::search(&tables.locations, locations, record);
        let text = match number {
            Some(number) => self.show.record(Kind::Location, number)?,
            None => none_has(record, source),
        };
        Ok(Found { text, number })
    }
}

fn none_has(record: &Record, source: &Source) -> String {
    let why = match record[0] {
        b'L' => String::new(),
        other => format!(": records of locations begin with {:02x}, and this one begins with {other:02x}", b'L'),
    };
    paragraph(&format!("{}:", source.name), 4, &format!("no location of this routine has this record{why}."))
}
