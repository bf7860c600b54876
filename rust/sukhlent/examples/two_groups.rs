//! Two experiments on one engine: the lower half of the qubits makes a star, marks it and comes back
//! to it; the upper half makes a path. Neither sees the other.

use std::fmt::Write;
use sukhlent::{codes, cz, Group, Pauli, Photon, Refusal, Shared};

/// The vertices of a group that are not in +Z as at the start, each with its neighbour word and its
/// code, and the group's used qubits.
fn show(text: &mut String, when: &str, group: &Group<'_>) {
    let record = group.record();
    let moved = (0..64).filter(|&q| record.neighbours[q] != 0 || record.codes[q] != codes::H);
    let vertices: String = moved
        .map(|q| format!(" {q}: {:x} {},", record.neighbours[q], record.codes[q]))
        .collect();
    writeln!(text, "{when}:{vertices} used {:x}", record.used).expect("room for text");
}

/// The session, as examples/c/two_groups.c prints it.
pub fn session(text: &mut String) -> Result<(), Refusal> {
    // Bit q is the group of qubit q.
    let shared = Shared::new(0xffff_ffff_0000_0000);
    let [lower, upper] = shared.groups();

    for q in 0..3 {
        lower.gate(q, codes::H)?;
    }
    lower.cz(0, 1)?;
    lower.cz(0, 2)?;
    lower.save(*b"star    ")?;
    show(text, "lower, a star", &lower);

    for q in [40, 41, 42] {
        upper.gate(q, codes::H)?;
    }
    upper.cz(40, 41)?;
    upper.cz(41, 42)?;
    upper.complement(41)?;
    show(text, "upper, a path complemented in its middle", &upper);

    lower.measure(Pauli::Z, 0, 1)?;
    show(text, "lower, Z at 0 gave 1", &lower);
    let told = lower.observe(Pauli::X, 1, 0)?;
    let (outcome, determined) = (told.outcome, u8::from(told.determined));
    writeln!(
        text,
        "lower, X at 1 with a bit 0: {outcome}, determined {determined}"
    )
    .expect("room for text");
    lower.renew(0, Photon::PlusY)?;
    show(text, "lower, a new photon at 0", &lower);
    lower.return_to(*b"star    ")?;
    show(text, "lower, the star again", &lower);
    show(text, "upper, as it was", &upper);

    let other = upper.gate(0, codes::X).expect_err("qubit 0 is the other's");
    let name = upper
        .return_to(*b"star    ")
        .expect_err("a name of the other");
    writeln!(text, "upper refused: {}, {}", other.number(), name.number()).expect("room for text");

    // The operator joins the groups, and parts them again.
    shared.operate(|record| cz(record, 1, 40))?;
    let [one, two] = [lower.gate(5, codes::X), upper.gate(45, codes::X)].map(Result::unwrap_err);
    writeln!(text, "joined: {}, {}", one.number(), two.number()).expect("room for text");
    shared.operate(|record| cz(record, 1, 40))?;
    lower.forget(*b"star    ")?;
    show(text, "parted: lower", &lower);
    show(text, "parted: upper, reduced by the operator", &upper);
    Ok(())
}

fn main() -> Result<(), Refusal> {
    let mut text = String::new();
    session(&mut text)?;
    print!("{text}");
    Ok(())
}
