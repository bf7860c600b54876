//! What happened in a session.

use std::fmt;

/// The numbers of calls of each kind.
#[derive(Clone, Debug, Default, PartialEq, Eq)]
pub struct Counts {
    pub gates: u64,
    pub czs: u64,
    /// Measurements whose outcome was the given bit.
    pub chosen: u64,
    /// Measurements whose outcome was determined.
    pub determined: u64,
    pub complements: u64,
    /// Measurements whose bit the state forbids.
    pub contradicted: u64,
    /// Calls that name a used qubit.
    pub used: u64,
    /// Calls with arguments that are out of range.
    pub refused: u64,
    /// How often all qubits were used and the session started anew.
    pub starts: u64,
    /// Rows in the group, rows whose negative is, and others.
    pub values: [u64; 3],
    /// Comparisons with an earlier state: not equivalent, and equivalent.
    pub compared: [u64; 2],
}

impl fmt::Display for Counts {
    fn fmt(&self, f: &mut fmt::Formatter<'_>) -> fmt::Result {
        write!(
            f,
            "{} gates, {} CZ, {} outcomes chosen, {} determined and {} contradicted, \
             {} complements, {} on used qubits, {} refused, {} starts anew; \
             {} rows plus, {} minus, {} neither; {} states equivalent to earlier ones, {} not",
            self.gates,
            self.czs,
            self.chosen,
            self.determined,
            self.contradicted,
            self.complements,
            self.used,
            self.refused,
            self.starts,
            self.values[0],
            self.values[1],
            self.values[2],
            self.compared[1],
            self.compared[0]
        )
    }
}
