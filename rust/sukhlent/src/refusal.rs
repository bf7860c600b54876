//! Refusals.

use std::fmt;

/// The enum of the rows, with `ALL` in their order and their words; a row is a comment, the variant
/// and its number, the name in the C header, and the words of `sukhlent_refusal_text`.
macro_rules! refusals {
    ($($(#[$doc:meta])* $name:ident = $number:literal, $alias:literal, $words:literal;)*) => {
        /// The reason for which a call refuses, by its number. A search for the name that the C header gives
        /// a number, as `SUKHLENT_CONTRADICTED`, finds its variant.
        ///
        /// ```
        /// use sukhlent::{gate, Record, Refusal};
        ///
        /// let refusal = gate(&mut Record::zeros(2), 2, 0).unwrap_err();
        /// assert_eq!((refusal, refusal.number()), (Refusal::Qubit, 8));
        /// ```
        #[derive(Clone, Copy, Debug, PartialEq, Eq, Hash, PartialOrd, Ord)]
        #[repr(u8)]
        pub enum Refusal {
            $($(#[$doc])* #[doc(alias = $alias)] $name = $number,)*
        }

        impl Refusal {
            /// Every refusal, in checking order.
            ///
            /// ```
            /// use sukhlent::Refusal;
            ///
            /// assert_eq!(Refusal::ALL[..2], [Refusal::Form, Refusal::Steps]);
            /// ```
            pub const ALL: [Refusal; 20] = [$(Refusal::$name),*];

            /// What is wrong, in the words of `sukhlent_refusal_text`.
            fn line(self) -> &'static str {
                match self {
                    $(Refusal::$name => $words,)*
                }
            }

            /// The name in the C header.
            #[cfg(test)]
            fn name_in_c(self) -> &'static str {
                match self {
                    $(Refusal::$name => $alias,)*
                }
            }
        }
    };
}

refusals! {
    /// A text is not of its form.
    Form = 1, "SUKHLENT_FORM",
        "the text does not have its form";
    /// A job or a run has more than 4,096 steps.
    Steps = 15, "SUKHLENT_STEPS",
        "a job or a run has more than 4,096 steps";
    /// The number of qubits is 0 or above the call's limit (64; 6 for an orbit), or differs between
    /// two lists or records, or is not 64 in a group's call or in a state that the group holds.
    Count = 2, "SUKHLENT_COUNT",
        "n is 0 or above the call's limit, or the two lists' or records' n differ, or a \
         group's call, or a state that it holds, has another n than 64";
    /// A buffer has a wrong length.
    Length = 4, "SUKHLENT_LENGTH",
        "a buffer's length is not what is required";
    /// A word has a bit outside of the qubits.
    Stray = 5, "SUKHLENT_STRAY",
        "a word has a bit at or above n";
    /// A sign, outcome or group is above 1, a code above 23 or no photon's, a Pauli not 1 to 3, a
    /// seed 0, an operation above 6, or a field that a step does not use is not 0.
    Value = 6, "SUKHLENT_VALUE",
        "a sign, outcome or group is above 1, a code above 23 or no photon's, a Pauli not 1 \
         to 3, a seed 0, a run's operation above 6, or a field that a step does not use is \
         not 0";
    /// A graph is not simple, a used vertex is not as a measurement leaves it, a store holds a name
    /// twice, or a group's held state has a neighbour outside it.
    Graph = 7, "SUKHLENT_GRAPH",
        "a graph is not simple, or a used vertex has a neighbour or a code that no \
         measurement leaves, or a store holds a name twice, or a group's held state has a \
         neighbour outside it";
    /// A group's call names a qubit of the other group, or the record has an edge between them.
    OtherGroup = 19, "SUKHLENT_OTHER_GROUP",
        "a group's call names a qubit of the other group, or the record has an edge between \
         the groups";
    /// A qubit number is n or more, a qubit is named twice, or a pivot's pair has no edge.
    Qubit = 8, "SUKHLENT_QUBIT",
        "a qubit number is n or more, or a qubit is named twice, or a pivot's pair has no \
         edge";
    /// A call names a used qubit.
    Used = 16, "SUKHLENT_USED",
        "the call names a used qubit";
    /// The qubit to renew is not used.
    NotUsed = 20, "SUKHLENT_NOT_USED",
        "the qubit to renew is not used";
    /// A name to return to or forget is not held.
    NotHeld = 17, "SUKHLENT_NOT_HELD",
        "a name to return to or forget is not held";
    /// A save finds eight other names held, or a group's save four.
    Full = 18, "SUKHLENT_FULL",
        "a save finds eight other names held, or a group's save four";
    /// Two generators anticommute.
    Anticommute = 9, "SUKHLENT_ANTICOMMUTE",
        "two generators do not commute";
    /// The generators are dependent.
    Dependent = 10, "SUKHLENT_DEPENDENT",
        "the generators are dependent";
    /// A connected part of a compared state's reduced graph has more than 20 vertices.
    Large = 3, "SUKHLENT_LARGE",
        "a connected part has more than 20 vertices";
    /// A supplied outcome is one that the state forbids.
    Contradicted = 14, "SUKHLENT_CONTRADICTED",
        "a determined outcome contradicts the supplied bit";
    /// The image is that of no graph: its x bits do not have full rank.
    ImageC = 11, "SUKHLENT_IMAGE_C",
        "the image is that of no graph: the image loop stops with some C = 1";
    /// The image is that of no simple graph: it has a loop.
    ImageY = 12, "SUKHLENT_IMAGE_Y",
        "the image has Y at some vertex's own place";
    /// Two states are not locally equivalent.
    Inequivalent = 13, "SUKHLENT_INEQUIVALENT",
        "no choice of local Cliffords carries one group to the other";
}

impl Refusal {
    /// The number, 1 to 20.
    ///
    /// ```
    /// assert_eq!(sukhlent::Refusal::Anticommute.number(), 9);
    /// ```
    pub fn number(self) -> u8 {
        self as u8
    }

    /// The refusal with this number.
    ///
    /// ```
    /// use sukhlent::Refusal;
    ///
    /// assert_eq!(Refusal::from_number(9), Some(Refusal::Anticommute));
    /// assert_eq!(Refusal::from_number(0), None);
    /// ```
    pub fn from_number(number: u8) -> Option<Refusal> {
        Refusal::ALL.into_iter().find(|r| r.number() == number)
    }

    /// The answer of a call: 0 is accepted. Panics on a number that is no refusal.
    pub(crate) fn unless_accepted(number: u8) -> Result<(), Refusal> {
        match (number, Refusal::from_number(number)) {
            (0, _) => Ok(()),
            (_, Some(refusal)) => Err(refusal),
            (_, None) => panic!("no refusal has the number {number}"),
        }
    }
}

impl fmt::Display for Refusal {
    fn fmt(&self, f: &mut fmt::Formatter<'_>) -> fmt::Result {
        write!(f, "refused {}: {}", self.number(), self.line())
    }
}

impl std::error::Error for Refusal {}

#[cfg(test)]
mod tests {
    use super::*;

    #[test]
    fn numbers_lead_back_to_their_refusals() {
        for refusal in Refusal::ALL {
            assert_eq!(Refusal::from_number(refusal.number()), Some(refusal));
            assert_eq!(
                Refusal::unless_accepted(refusal.number()),
                Err(refusal),
                "{refusal}"
            );
        }
        assert_eq!(Refusal::unless_accepted(0), Ok(()));
        let mut numbers = Refusal::ALL.map(Refusal::number);
        numbers.sort();
        assert!(numbers.into_iter().eq(1..=20));
        assert!((21..=255).all(|number| Refusal::from_number(number).is_none()));
    }

    #[test]
    fn the_numbers_of_the_requests_stand_at_their_places() {
        let order = Refusal::ALL.map(Refusal::number);
        let due = [
            1, 15, 2, 4, 5, 6, 7, 19, 8, 16, 20, 17, 18, 9, 10, 3, 14, 11, 12, 13,
        ];
        assert_eq!(order, due);
    }

    #[test]
    fn the_words_are_those_of_the_header() {
        let header = include_str!("../../../include/sukhlent.h");
        let said: Vec<&str> = header
            .lines()
            .filter_map(|line| line.trim().strip_prefix("case SUKHLENT_"))
            .filter_map(|line| line.split('"').nth(1))
            .collect();
        assert_eq!(said[0], "accepted");
        assert_eq!(said[1..], Refusal::ALL.map(Refusal::line));
    }

    #[test]
    fn every_refusal_has_its_name_in_the_header_in_the_case_of_rust() {
        let header = include_str!("../../../include/sukhlent.h");
        for refusal in Refusal::ALL {
            let name = name_in(header, refusal.number());
            assert_eq!(refusal.name_in_c(), format!("SUKHLENT_{name}"));
            assert_eq!(format!("{refusal:?}"), in_words(name));
        }
    }

    /// NOT_USED as Rust writes it: NotUsed.
    fn in_words(name: &str) -> String {
        let words = name.split('_');
        words
            .map(|word| word[..1].to_string() + &word[1..].to_lowercase())
            .collect()
    }

    /// The name of a refusal's number: of the names with that value the first, since the refusals
    /// stand before Paulis, operations and gates.
    fn name_in(header: &str, number: u8) -> &str {
        let names = header.split("#define SUKHLENT_ACCEPTED").nth(1).unwrap();
        let defined = names
            .lines()
            .filter_map(|line| line.strip_prefix("#define SUKHLENT_"));
        let mut pairs = defined.filter_map(|line| line.split_once(' '));
        let wanted = number.to_string();
        pairs.find(|(_, value)| *value == wanted).unwrap().0
    }

    #[test]
    fn every_refusal_has_its_own_line() {
        let lines: std::collections::HashSet<_> = Refusal::ALL.map(Refusal::line).into();
        assert_eq!(lines.len(), Refusal::ALL.len());
        assert_eq!(
            Refusal::Anticommute.to_string(),
            "refused 9: two generators do not commute"
        );
    }

    #[test]
    #[should_panic(expected = "no refusal has the number 21")]
    fn other_numbers_are_no_answers() {
        let _ = Refusal::unless_accepted(21);
    }
}
