//! A short session: a list is reduced, its graph sent through codes, the two states compared, and
//! the second one changed by gates and a measurement, which leaves its qubit used.
//! Records are printed as Graphviz DOT text. examples/c/session.c is the same session in C.

use std::error::Error;
use std::fmt::{self, Write};
use sukhlent::{compare, cz, expand, gate, image, measure, reduce, GeneratorList, Pauli, Record};

fn main() -> Result<(), Box<dyn Error>> {
    let mut text = String::new();
    session(&mut text)?;
    print!("{text}");
    Ok(())
}

/// Writes what the session shows.
pub fn session(out: &mut impl Write) -> Result<(), Box<dyn Error>> {
    let ghz = list(&["+XXXX", "+ZZII", "+IZZI", "+IIZZ"]);
    write_list(out, "list", &ghz)?;
    let star = reduce(&ghz)?;
    write_dot(out, "reduced", &star)?;

    let codes = vec![12, 4, 4, 4];
    let sent = image(&Record { codes, ..star })?;
    write_numbers(out, "complemented at", &sent.complementations)?;
    write_numbers(out, "signs", &sent.signs)?;
    let complete = Record {
        neighbours: sent.neighbours,
        codes: vec![0; 4],
        used: 0,
    };
    write_dot(out, "image", &complete)?;

    let other = expand(&complete)?;
    write_list(out, "its list", &other)?;
    let answer = compare(&ghz, &other)?;
    write_numbers(out, "the least choice of codes", &answer.choice)?;
    write_numbers(out, "complemented at", &answer.complementations)?;

    let mut record = complete;
    gate(&mut record, 1, 8)?;
    cz(&mut record, 2, 3)?;
    write_dot(out, "after_gates", &record)?;
    let measured = measure(&mut record, Pauli::Z, 0, 1)?;
    let how = if measured.determined {
        "determined"
    } else {
        "chosen"
    };
    writeln!(out, "// Z on qubit 0: outcome {}, {how}", measured.outcome)?;
    write_dot(out, "measured", &record)?;
    if let Err(refusal) = gate(&mut record, 0, 8) {
        writeln!(out, "// a gate on qubit 0: refused {}", refusal.number())?;
    }
    Ok(())
}

/// The list of generators such as "-XZ": a sign, then a letter per qubit, qubit 0 first.
fn list(texts: &[&str]) -> GeneratorList {
    let word = |text: &str, letters: &str| {
        let places = text[1..].chars().enumerate();
        places.fold(0, |w, (q, c)| w | u64::from(letters.contains(c)) << q)
    };
    GeneratorList {
        signs: texts.iter().map(|t| u8::from(t.starts_with('-'))).collect(),
        z: texts.iter().map(|t| word(t, "ZY")).collect(),
        x: texts.iter().map(|t| word(t, "XY")).collect(),
    }
}

/// Writes the generators of a list on one line.
fn write_list(out: &mut impl Write, title: &str, list: &GeneratorList) -> fmt::Result {
    write!(out, "// {title}:")?;
    for j in 0..list.n() {
        out.write_str(if list.signs[j] == 1 { " -" } else { " +" })?;
        for q in 0..list.n() {
            let number = 2 * (list.z[j] >> q & 1) + (list.x[j] >> q & 1);
            out.write_char(['I', 'X', 'Z', 'Y'][number as usize])?;
        }
    }
    writeln!(out)
}

/// Writes numbers on one line.
fn write_numbers(out: &mut impl Write, title: &str, numbers: &[u8]) -> fmt::Result {
    write!(out, "// {title}:")?;
    for number in numbers {
        write!(out, " {number}")?;
    }
    writeln!(out)
}

/// Writes a record as a graph whose vertices are labelled with their codes, used ones dashed.
fn write_dot(out: &mut impl Write, name: &str, record: &Record) -> fmt::Result {
    writeln!(out, "graph {name} {{")?;
    for (q, code) in record.codes.iter().enumerate() {
        let style = match record.used >> q & 1 {
            1 => ", style=dashed",
            _ => "",
        };
        writeln!(out, "    {q} [label=\"{q}: code {code}\"{style}];")?;
    }
    for a in 0..record.n() {
        for b in (a + 1..record.n()).filter(|b| record.neighbours[a] >> b & 1 == 1) {
            writeln!(out, "    {a} -- {b};")?;
        }
    }
    writeln!(out, "}}")
}
