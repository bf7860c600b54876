//! The programs answer the text that they read, and all of it: texts that are answered differently each time, and texts
//! of which every whole number of the programs' blocks is a text with another answer. What a program reads is in no
//! contract, so that these tests alone tell a program that reads nothing, or the first block only.
use crate::common::process::{printed, refused, Program};
use std::collections::HashSet;
use std::time::Duration;
use sukhlent::Record;

const REDUCE: Program = Program("reduce");
const JOB: Program = Program("job");

/// The bytes that the programs read at a time.
const BLOCK: usize = 65_536;

/// The print of a record of these codes without edges, with a word of used qubits.
fn apart(codes: &[u8], used: u64) -> String {
    printed(&Record {
        neighbours: vec![0; codes.len()],
        codes: codes.to_vec(),
        used,
    })
}

/// The lines before the steps of a job on n qubits.
fn head(n: usize) -> String {
    format!("qubits\n{n}\nop a b value\n")
}

/// The answer to a job on one qubit whose first steps were refused by 8, then one step for each answer given; the code
/// that is left, and the used word.
fn answer(refused: usize, last: &[&str], (code, used): (u8, u64)) -> String {
    let mut out = String::from("step refusal outcome determined\n");
    for k in 0..refused {
        out += &format!("{k} 8 0 0\n");
    }
    for (k, line) in last.iter().enumerate() {
        out += &format!("{} {line}\n", refused + k);
    }
    out + &apart(&[code], used)
}

/// The text of a job on one qubit that fills exactly one block, with steps that 8 refuses, and their number.
fn one_block() -> (String, usize) {
    let (short, long) = ("gate 99 0 8\n", "complement 999 0 0\n");
    let room = BLOCK - head(1).len();
    let few = (0..long.len())
        .find(|few| (room - few * short.len()) % long.len() == 0)
        .unwrap();
    let many = (room - few * short.len()) / long.len();
    let text = head(1) + &short.repeat(few) + &long.repeat(many);
    assert_eq!(text.len(), BLOCK);
    (text, few + many)
}

/// One block more of steps that 8 refuses.
fn block_more() -> String {
    let text = "measure 999 0 5\n".repeat(4096);
    assert_eq!(text.len(), BLOCK);
    text
}

// ---- each text has its own answer
#[test]
fn reduce_answers_each_list() {
    let mut answers = HashSet::new();
    // Z, X or Y with a sign on each of up to three qubits
    for n in 1..=3u32 {
        for k in 0..6u32.pow(n) {
            let digits: Vec<u32> = (0..n).map(|q| k / 6u32.pow(q) % 6).collect();
            let mut text = String::from("sign z x\n");
            for (q, d) in digits.iter().enumerate() {
                let (z, x) = [(0, 1), (1, 1), (1, 0)][*d as usize / 2];
                text += &format!("{} {:016x} {:016x}\n", d % 2, z << q, x << q);
            }
            let codes: Vec<u8> = digits.iter().map(|d| 2 * *d as u8).collect();
            let out = REDUCE.run(text.as_bytes());
            assert_eq!(out, apart(&codes, 0), "{text}");
            answers.insert(out);
        }
    }
    assert_eq!(answers.len(), 6 + 36 + 216);
}

#[test]
fn job_answers_each_text() {
    let mut answers = HashSet::new();
    for n in 1..=12 {
        for q in 0..n {
            // X measured on qubit q, with outcome 1
            let text = format!("{}measure {q} 0 1\n", head(n));
            let mut codes = vec![8; n];
            codes[q] = 2;
            let lines = "step refusal outcome determined\n0 0 1 0\n";
            let out = JOB.run(text.as_bytes());
            assert_eq!(out, format!("{lines}{}", apart(&codes, 1 << q)), "{text}");
            answers.insert(out);
        }
    }
    assert_eq!(answers.len(), 78);
}

// ---- accepted texts longer than a block
#[test]
fn steps_behind_the_first_block_run() {
    let (block, count) = one_block();
    assert!(count < 4000);
    assert_eq!(JOB.run(block.as_bytes()), answer(count, &[], (8, 0)));
    // a step more, or two of which the second tells what the first did
    for (steps, lines, left) in [
        ("gate 0 0 8\n", &["0 0 0"][..], (0, 0)),
        ("gate 0 0 1\nmeasure 0 0 5\n", &["0 0 0", "0 1 1"], (10, 1)),
        ("measure 0 0 3\n", &["0 1 0"], (6, 1)),
        ("measure 0 0 3\ngate 0 0 8\n", &["0 1 0", "16 0 0"], (6, 1)),
    ] {
        let text = format!("{block}{steps}");
        assert_eq!(
            JOB.run(text.as_bytes()),
            answer(count, lines, left),
            "{steps}"
        );
    }
    // as many steps as are accepted
    let more = "gate 0 0 8\n".repeat(4096 - count);
    let out = JOB.run(format!("{block}{more}").as_bytes());
    let code = if (4096 - count) % 2 == 0 { 8 } else { 0 };
    let lines = vec!["0 0 0"; 4096 - count];
    assert_eq!(out, answer(count, &lines, (code, 0)));
}

// ---- refusals that a later block decides
#[test]
fn a_fault_behind_the_first_block_is_refused() {
    let (block, count) = one_block();
    for fault in [
        "!",
        "\n",
        "gate 0 0 8",
        "gate 0 0 8\n\0",
        "gates 0 0 8\n",
        "gate 0 0 08\n",
    ] {
        let text = format!("{block}{fault}");
        assert_eq!(JOB.run(text.as_bytes()), refused(1), "{fault:?}");
    }
    let more = "gate 0 0 8\n".repeat(4097 - count);
    assert_eq!(JOB.run(format!("{block}{more}").as_bytes()), refused(15));
}

// Two to five blocks, each prefix of which is the text of a job: 15 is known from the second block on, and 1 only at the
// end.
#[test]
fn every_block_of_a_job_is_read() {
    let (mut text, _) = one_block();
    for blocks in 2..=5 {
        text += &block_more();
        assert_eq!(text.len(), blocks * BLOCK);
        assert_eq!(JOB.run(text.as_bytes()), refused(15), "{blocks} blocks");
        let fault = format!("{text}!");
        assert_eq!(JOB.run(fault.as_bytes()), refused(1), "{blocks} blocks");
    }
}

// A list of more than 64 is 2 and ends inside a block: its first blocks alone end inside a line, and are 1.
#[test]
fn every_block_of_a_list_is_read() {
    let line = format!("0 {:016x} {:016x}\n", 0, 0);
    for blocks in 1..=4 {
        let count = blocks * BLOCK / line.len() + 1;
        let text = format!("sign z x\n{}", line.repeat(count));
        assert!(text.len() > blocks * BLOCK);
        let part = &text.as_bytes()[..blocks * BLOCK];
        assert_eq!(REDUCE.run(part), refused(1), "{blocks} blocks");
        assert_eq!(REDUCE.run(text.as_bytes()), refused(2), "{blocks} blocks");
        let fault = format!("{text}!");
        assert_eq!(REDUCE.run(fault.as_bytes()), refused(1), "{blocks} blocks");
    }
}

// ---- a text that comes in pieces, of which the first is a text by itself
#[test]
fn what_comes_later_is_read() {
    let pause = Duration::from_millis(100);
    let pieces = |program: Program, pieces: &[&str]| {
        program.run_pieces(pieces.iter().map(|p| p.as_bytes()), pause)
    };
    let x = "sign z x\n0 0000000000000000 0000000000000001\n";
    let z = "1 0000000000000002 0000000000000000\n";
    assert_eq!(pieces(REDUCE, &[x]), apart(&[0], 0));
    assert_eq!(pieces(REDUCE, &[x, z]), apart(&[0, 10], 0));
    assert_eq!(pieces(REDUCE, &[x, "!"]), refused(1));
    let first = format!("{}gate 0 0 8\n", head(1));
    assert_eq!(pieces(JOB, &[&first]), answer(0, &["0 0 0"], (0, 0)));
    assert_eq!(
        pieces(JOB, &[&first, "gate 0 0 8\n"]),
        answer(0, &["0 0 0", "0 0 0"], (8, 0))
    );
    assert_eq!(pieces(JOB, &[&first, "!"]), refused(1));
}
