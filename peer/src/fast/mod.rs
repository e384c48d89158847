//! An incremental engine: one record, changed in place at each call.

mod decode;
mod engine;
mod limits;
mod output;
mod record;
mod store;
mod stream;

#[cfg(test)]
mod tests;

use crate::view::View;
use decode::{decode, Step};
use record::Record;

pub use stream::run;

/// The text that the program prints for a log, read through an input buffer of
/// this size.
pub fn text(log: &[u8], buffer: usize) -> String {
    let mut out = Vec::new();
    run(log, &mut out, buffer).expect("reading and writing memory");
    String::from_utf8(out).expect("plain text")
}

/// Feeds every readable event to a fresh record, calling `each` after it.
fn replay(log: &[u8], mut each: impl FnMut(&Record)) -> Record {
    let Some(mut record) = log.first().and_then(|&battery| Record::fresh(battery)) else {
        return Record::of_type_one();
    };
    let mut rest = &log[1..];
    while let Step::Event(event, length) = decode(rest) {
        record.call(&event);
        rest = &rest[length..];
        each(&record);
    }
    record
}

/// The record after the log, or after its last readable event.
pub fn view(log: &[u8]) -> View {
    replay(log, |_| ()).view()
}

/// The record after every event of the log.
pub fn views(log: &[u8]) -> Vec<View> {
    let mut views = Vec::new();
    replay(log, |record| views.push(record.view()));
    views
}
