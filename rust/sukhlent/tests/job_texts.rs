//! The program `job`, run as a process: its texts, their refusals and the order of these, and its input in blocks.
use crate::common::process::{refused, Program};
use std::time::Duration;

const JOB: Program = Program("job");
const EXAMPLE: &str = include_str!("../../../crates/job/stdin");
const ANSWER: &str = include_str!("../../../crates/job/stdout");

fn run(text: &str) -> String {
    JOB.run(text.as_bytes())
}

#[track_caller]
fn refuses(k: u32, text: &str) {
    let start: String = text.chars().take(200).collect();
    assert_eq!(run(text), refused(k), "input {start:?}");
}

/// The lines before the steps.
fn head(n: &str) -> String {
    format!("qubits\n{n}\nop a b value\n")
}

/// The record of n qubits in +Z.
fn all_plus_z(n: usize) -> String {
    let lines = (0..n).map(|q| format!("{q} 8 {:016x} 0\n", 0));
    format!("qubit code neighbours used\n{}", lines.collect::<String>())
}

// ---- accepted texts
// The measurement of document 01 as a job: Z on qubit 1 is refused with bit 0 and determined with bit 1.
#[test]
fn the_example() {
    assert_eq!(run(EXAMPLE), ANSWER);
    assert!(ANSWER.contains("\n4 0 1 0\n5 14 0 0\n6 0 1 1\n"));
    assert!(ANSWER.ends_with("\n0 10 0000000000000000 1\n1 10 0000000000000000 1\n"));
}

#[test]
fn no_step_is_a_job() {
    for n in [1, 2, 9, 10, 63, 64] {
        let answer = format!("step refusal outcome determined\n{}", all_plus_z(n));
        assert_eq!(run(&head(&n.to_string())), answer);
    }
}

// Each operation on the edge of two qubits, and what it leaves.
#[test]
fn each_operation() {
    let edge = "gate 0 0 8\ngate 1 0 8\ncz 0 1 0\n";
    for (step, answer, codes) in [
        ("gate 0 0 4", "0 0 0", (4, 0)),
        ("measure 0 0 0", "0 0 0", (0, 8)),
        ("measure 0 0 5", "0 1 0", (10, 2)),
        ("complement 0 0 0", "0 0 0", (13, 6)),
        ("pivot 1 0 0", "0 0 0", (11, 11)),
        ("cz 1 0 0", "0 0 0", (0, 0)),
    ] {
        let out = run(&format!("{}{edge}{step}\n", head("2")));
        let apart = step.starts_with("measure") || step.starts_with("cz");
        let words = if apart { (0, 0) } else { (2, 1) };
        let used = u8::from(step.starts_with("measure"));
        let expected = format!(
            "step refusal outcome determined\n0 0 0 0\n1 0 0 0\n2 0 0 0\n3 {answer}\n\
             qubit code neighbours used\n0 {} {:016x} {used}\n1 {} {:016x} 0\n",
            codes.0, words.0, codes.1, words.1
        );
        assert_eq!(out, expected, "{step}");
    }
}

// ---- refused steps: the job goes on
#[test]
fn refused_steps_change_nothing() {
    let steps = [
        // 6: an unused field, or a value that is none; also of numbers that a byte would lose
        ("gate 0 1 8", 6),
        ("gate 0 999 8", 6),
        ("gate 0 256 8", 6),
        ("gate 0 0 24", 6),
        ("gate 0 0 264", 6),
        ("gate 0 0 999", 6),
        ("cz 0 1 1", 6),
        ("cz 0 1 256", 6),
        ("measure 0 1 4", 6),
        ("measure 0 0 6", 6),
        ("measure 0 0 7", 6),
        ("measure 0 0 260", 6),
        ("measure 0 0 516", 6),
        ("complement 0 1 0", 6),
        ("complement 0 0 1", 6),
        ("complement 0 256 256", 6),
        ("pivot 0 1 1", 6),
        // 6 before 8
        ("gate 9 1 8", 6),
        ("gate 9 0 24", 6),
        ("cz 9 9 9", 6),
        ("measure 9 0 6", 6),
        ("complement 9 1 0", 6),
        ("pivot 9 9 1", 6),
        // 8: a qubit that is none, one qubit twice, no edge
        ("gate 2 0 8", 8),
        ("gate 256 0 8", 8),
        ("cz 0 2 0", 8),
        ("cz 2 0 0", 8),
        ("cz 1 1 0", 8),
        ("cz 0 257 0", 8),
        ("measure 2 0 4", 8),
        // 8 before 14
        ("measure 999 0 5", 8),
        ("complement 2 0 0", 8),
        ("complement 999 0 0", 8),
        ("pivot 0 1 0", 8),
        ("pivot 0 0 0", 8),
        ("pivot 0 2 0", 8),
        // 14: the state is +Z
        ("measure 0 0 5", 14),
        ("measure 1 0 5", 14),
    ];
    let mut text = head("2");
    let mut answer = String::from("step refusal outcome determined\n");
    for (k, (step, number)) in steps.iter().enumerate() {
        text += &format!("{step}\n");
        answer += &format!("{k} {number} 0 0\n");
    }
    assert_eq!(run(&text), answer + &all_plus_z(2));
}

// The step behind a refused one runs on the record before it.
#[test]
fn a_job_continues() {
    let out = run(&format!(
        "{}gate 0 0 3\nmeasure 0 0 4\nmeasure 0 0 5\n",
        head("1")
    ));
    let expected = "step refusal outcome determined\n0 0 0 0\n1 14 0 0\n2 0 1 1\n\
                    qubit code neighbours used\n0 10 0000000000000000 1\n";
    assert_eq!(out, expected);
}

// A measured qubit is used: steps that name it are refused by 16, behind 6 and 8 and before 14, and the others run.
#[test]
fn steps_on_used_qubits() {
    let steps = [
        ("gate 0 0 8", "0 0 0"),
        ("gate 1 0 8", "0 0 0"),
        ("cz 0 1 0", "0 0 0"),
        // Z on qubit 0 with outcome 1 leaves -X on qubit 1
        ("measure 0 0 5", "0 1 0"),
        ("gate 0 0 8", "16 0 0"),
        ("gate 0 0 0", "16 0 0"),
        ("cz 0 1 0", "16 0 0"),
        ("cz 1 0 0", "16 0 0"),
        ("complement 0 0 0", "16 0 0"),
        ("measure 0 0 0", "16 0 0"),
        ("measure 0 0 5", "16 0 0"),
        // 16 before 14: qubit 0 is -Z
        ("measure 0 0 4", "16 0 0"),
        // 6 before 16: an unused field, or a value that is none
        ("gate 0 0 24", "6 0 0"),
        ("gate 0 1 8", "6 0 0"),
        ("cz 0 1 1", "6 0 0"),
        ("measure 0 0 6", "6 0 0"),
        ("measure 0 1 4", "6 0 0"),
        ("complement 0 1 0", "6 0 0"),
        // 8 before 16: a qubit that is none, one qubit twice, no edge
        ("cz 0 0 0", "8 0 0"),
        ("cz 0 3 0", "8 0 0"),
        ("cz 3 0 0", "8 0 0"),
        ("pivot 0 1 0", "8 0 0"),
        ("pivot 1 0 0", "8 0 0"),
        ("pivot 0 0 0", "8 0 0"),
        // the others
        ("measure 1 0 0", "14 0 0"),
        ("gate 2 0 8", "0 0 0"),
        ("cz 1 2 0", "0 0 0"),
        ("measure 1 0 3", "0 1 0"),
        ("cz 1 2 0", "16 0 0"),
        ("cz 2 1 0", "16 0 0"),
        ("complement 2 0 0", "0 0 0"),
        ("gate 2 0 0", "0 0 0"),
    ];
    let mut text = head("3");
    let mut answer = String::from("step refusal outcome determined\n");
    for (k, (step, line)) in steps.iter().enumerate() {
        text += &format!("{step}\n");
        answer += &format!("{k} {line}\n");
    }
    let record = "qubit code neighbours used\n0 10 0000000000000000 1\n\
                  1 6 0000000000000000 1\n2 4 0000000000000000 0\n";
    assert_eq!(run(&text), answer + record);
}

// All qubits used: no step is accepted any more.
#[test]
fn a_job_whose_qubits_are_all_used() {
    let n = 64;
    let mut text = head("64");
    let mut answer = String::from("step refusal outcome determined\n");
    for q in 0..n {
        text += &format!("measure {q} 0 {}\n", 2 * (q % 2) + q / 32);
        answer += &format!("{q} 0 {} 0\n", q / 32);
    }
    let further = [
        ("gate", 0),
        ("measure", 0),
        ("measure", 5),
        ("complement", 0),
    ];
    for (k, q) in (n..).zip((0..n).flat_map(|q| [q; 4])) {
        let (op, value) = further[k % 4];
        text += &format!("{op} {q} 0 {value}\n");
        answer += &format!("{k} 16 0 0\n");
    }
    answer += "qubit code neighbours used\n";
    for q in 0..n {
        let code = 4 * (q % 2) + 2 * (q / 32);
        answer += &format!("{q} {code} {:016x} 1\n", 0);
    }
    assert_eq!(run(&text), answer);
}

// ---- refusal 1
#[test]
fn malformed_heads() {
    for text in [
        "",
        "\n",
        "qubits\n",
        "qubits\n2",
        "qubits\n2\n",
        "qubits\n2\nop a b value",
        "qubits 2\nop a b value\n",
        "Qubits\n2\nop a b value\n",
        "qubit\n2\nop a b value\n",
        "qubits\n\nop a b value\n",
        "qubits\n2 \nop a b value\n",
        "qubits\n 2\nop a b value\n",
        "qubits\n+2\nop a b value\n",
        "qubits\n-1\nop a b value\n",
        "qubits\n2\nop a b\n",
        "qubits\n2\nop a b value \n",
        "qubits\n2\nop  a b value\n",
        "qubits\n2\nop\ta b value\n",
        "qubits\r\n2\r\nop a b value\r\n",
        "qubits\n2\n\nop a b value\n",
        "qubits\n2\nop a b value\n\n",
        "op a b value\n",
        "\u{feff}qubits\n2\nop a b value\n",
    ] {
        refuses(1, text);
    }
    for n in ["02", "00", "002", "1000", "0064", "4096", "a", "2a", "0x2"] {
        refuses(1, &head(n));
    }
}

#[test]
fn malformed_steps() {
    for bad in [
        "gate 0 0 8",
        "gate 0 0 8 \n",
        " gate 0 0 8\n",
        "gate  0 0 8\n",
        "gate 0  0 8\n",
        "gate\t0 0 8\n",
        "gate 0 0 8\r\n",
        "gate 0 0\n",
        "gate 0 0 \n",
        "gate 0 0 8 0\n",
        "gate 00 0 8\n",
        "gate 0 01 8\n",
        "gate 0 0 08\n",
        "gate 0 0 1000\n",
        "gate 1000 0 8\n",
        "gate -1 0 8\n",
        "gate +1 0 8\n",
        "gate 0 0 /\n",
        "gate 0 0 :\n",
        "gate 0 0 a\n",
        "gates 0 0 8\n",
        "Gate 0 0 8\n",
        "GATE 0 0 8\n",
        "gat 0 0 8\n",
        "h 0 0 0\n",
        "cnot 0 1 0\n",
        "c 0 1 0\n",
        "czz 0 1 0\n",
        "cc 0 1 0\n",
        "co 0 0 0\n",
        "complements 0 0 0\n",
        "measured 0 0 4\n",
        "pivo 0 1 0\n",
        "pivots 0 1 0\n",
        "save 0 0 0\n",
        "\n",
        "\0",
        "op a b value\n",
    ] {
        refuses(1, &format!("{}{bad}", head("2")));
        // also where good lines stand before it, and behind it
        refuses(1, &format!("{EXAMPLE}{bad}"));
        if bad.ends_with('\n') {
            refuses(1, &format!("{}{bad}gate 0 0 8\n", head("2")));
        }
    }
}

/// Operations that a run has and no text.
#[test]
fn observations_and_renewals_have_no_form() {
    for line in ["observe 0 0 0", "renew 0 0 8", "observe 0 0 5"] {
        refuses(1, &format!("{}{line}\n", head("2")));
        refuses(1, &format!("{}measure 0 0 0\n{line}\n", head("2")));
    }
}

#[test]
fn every_byte_of_the_example_matters() {
    let bytes = EXAMPLE.as_bytes();
    for at in 0..bytes.len() {
        let mut less = bytes.to_vec();
        less.remove(at);
        assert_eq!(JOB.run(&less), refused(1), "without byte {at}");
        let mut other = bytes.to_vec();
        other[at] = 0xff;
        assert_eq!(JOB.run(&other), refused(1), "byte {at} changed");
    }
}

// ---- refusals 2 and 15, and their order
#[test]
fn counts_of_qubits() {
    for n in [
        "0", "65", "66", "99", "100", "128", "255", "256", "257", "320", "999",
    ] {
        refuses(2, &head(n));
        refuses(2, &format!("{}gate 0 0 8\n", head(n)));
        // 1 comes first
        refuses(1, &format!("{}gate 0 0 8", head(n)));
    }
}

#[test]
fn more_than_4096_steps() {
    let good = "gate 0 0 8\n";
    let many = |n: &str, k: usize| format!("{}{}", head(n), good.repeat(k));
    // 4,096 Hadamards are the identity, and one less is one
    let out = run(&many("1", 4096));
    assert_eq!(out.lines().count(), 1 + 4096 + 2);
    assert!(out.ends_with("\n4095 0 0 0\nqubit code neighbours used\n0 8 0000000000000000 0\n"));
    assert!(run(&many("1", 4095)).ends_with("\n0 0 0000000000000000 0\n"));
    for k in [4097, 4098, 8192, 65_536, 69_632] {
        refuses(15, &many("1", k));
        // 15 before 2, and 1 before both
        refuses(15, &many("0", k));
        refuses(15, &many("999", k));
        refuses(1, &format!("{}!", many("1", k)));
        refuses(1, &format!("{}!{good}", many("65", k)));
        refuses(1, &format!("{}\n", many("1", k)));
    }
    refuses(2, &many("65", 4096));
}

// The longest accepted text, and the longest answer.
#[test]
fn the_longest_text() {
    let text = format!("{}{}", head("64"), "complement 999 999 999\n".repeat(4096));
    assert_eq!(text.len(), 94_231);
    let lines = (0..4096).map(|k| format!("{k} 6 0 0\n"));
    let answer = format!(
        "step refusal outcome determined\n{}{}",
        lines.collect::<String>(),
        all_plus_z(64)
    );
    assert_eq!(run(&text), answer);
    let text = format!("{}{}", head("64"), "measure 63 0 5\n".repeat(4096));
    assert_eq!(run(&text), answer.replace(" 6 0 0\n", " 14 0 0\n"));
}

// ---- the input in blocks
#[test]
fn one_pause_anywhere() {
    let bytes = EXAMPLE.as_bytes();
    for at in 0..=bytes.len() {
        let pieces = [&bytes[..at], &bytes[at..]];
        let out = JOB.run_pieces(pieces.into_iter(), Duration::from_millis(2));
        assert_eq!(out, ANSWER, "a pause behind byte {at}");
    }
}

// A text longer than one block of the program, in blocks that end inside lines.
#[test]
fn long_texts_in_blocks() {
    let many = format!("{}{}", head("3"), "complement 200 0 0\n".repeat(4096));
    let answer = run(&many);
    assert!(answer.contains("\n4095 8 0 0\n"));
    let bad = format!("{many}!");
    for size in [4095, 4096, 4097, 65_535, 65_536, 65_537] {
        let pause = Duration::from_millis(1);
        assert_eq!(JOB.run_pieces(many.as_bytes().chunks(size), pause), answer);
        assert_eq!(
            JOB.run_pieces(bad.as_bytes().chunks(size), pause),
            refused(1)
        );
    }
    for at in 65_530..65_542 {
        let mut bytes = many.as_bytes().to_vec();
        bytes[at] = b'!';
        assert_eq!(JOB.run(&bytes), refused(1), "byte {at}");
    }
}
