//! The public calls, one file for each kind of argument. A call is added by an entry of the table.

mod generator;
mod groups;
mod in_place;
mod lists;
mod orbits;
mod pairs;
mod parity;
mod record_texts;
mod records;
mod runs;
mod source;
mod stores;
mod strings;

use crate::common::Random;

/// A public call under test.
pub struct Call {
    /// The name, without the prefix.
    pub name: &'static str,
    /// Makes arguments, calls, and panics where something is not as it must be; answers the
    /// number of the refusal, or 0.
    pub once: fn(&mut Random) -> u8,
}

/// Every public call.
pub const CALLS: [Call; 38] = [
    Call {
        name: "check",
        once: lists::check,
    },
    Call {
        name: "reduce",
        once: lists::reduce,
    },
    Call {
        name: "expand",
        once: records::expand,
    },
    Call {
        name: "gate",
        once: in_place::gate,
    },
    Call {
        name: "cz",
        once: in_place::cz,
    },
    Call {
        name: "measure",
        once: in_place::measure,
    },
    Call {
        name: "observe",
        once: source::observe,
    },
    Call {
        name: "measure_row",
        once: parity::measure_row,
    },
    Call {
        name: "renew",
        once: source::renew,
    },
    Call {
        name: "complement",
        once: in_place::complement,
    },
    Call {
        name: "run",
        once: runs::run,
    },
    Call {
        name: "image",
        once: records::image,
    },
    Call {
        name: "cut",
        once: records::cut,
    },
    Call {
        name: "amplitude",
        once: records::amplitude,
    },
    Call {
        name: "expectation",
        once: records::expectation,
    },
    Call {
        name: "product",
        once: lists::product,
    },
    Call {
        name: "compare",
        once: pairs::compare,
    },
    Call {
        name: "compare_records",
        once: pairs::compare_records,
    },
    Call {
        name: "equivalent",
        once: pairs::equivalent,
    },
    Call {
        name: "equivalent_records",
        once: pairs::equivalent_records,
    },
    Call {
        name: "generate",
        once: generator::generate,
    },
    Call {
        name: "read_strings",
        once: strings::read,
    },
    Call {
        name: "write_strings",
        once: strings::write,
    },
    Call {
        name: "read_record",
        once: record_texts::read,
    },
    Call {
        name: "write_record",
        once: record_texts::write,
    },
    Call {
        name: "orbit",
        once: orbits::orbit,
    },
    Call {
        name: "save",
        once: stores::save,
    },
    Call {
        name: "return",
        once: stores::return_to,
    },
    Call {
        name: "forget",
        once: stores::forget,
    },
    Call {
        name: "group_gate",
        once: groups::gate,
    },
    Call {
        name: "group_cz",
        once: groups::cz,
    },
    Call {
        name: "group_measure",
        once: groups::measure,
    },
    Call {
        name: "group_observe",
        once: groups::observe,
    },
    Call {
        name: "group_renew",
        once: groups::renew,
    },
    Call {
        name: "group_complement",
        once: groups::complement,
    },
    Call {
        name: "group_save",
        once: groups::save,
    },
    Call {
        name: "group_return",
        once: groups::return_to,
    },
    Call {
        name: "group_forget",
        once: groups::forget,
    },
];
