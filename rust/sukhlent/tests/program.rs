//! The program `reduce`, run as a process: its texts, its refusals and their order, and its input in blocks.
use crate::common::process::{refused, Program};
use crate::common::Random;
use std::time::Duration;

const NAMES: &str = "sign z x\n";
const REDUCE: Program = Program("reduce");

/// What the program prints for an input that comes in these pieces, with a pause after each.
fn run_pieces<'a>(pieces: impl Iterator<Item = &'a [u8]>, pause: Duration) -> String {
    REDUCE.run_pieces(pieces, pause)
}

fn run(input: &[u8]) -> String {
    REDUCE.run(input)
}

#[track_caller]
fn refuses(k: u32, input: &str) {
    assert_eq!(
        run(input.as_bytes()),
        refused(k),
        "input {:?}",
        &input[..input.len().min(200)]
    );
}

fn line(sign: u8, z: u64, x: u64) -> String {
    format!("{sign} {z:016x} {x:016x}\n")
}

fn text(lines: &[(u8, u64, u64)]) -> String {
    let mut t = NAMES.to_string();
    for &(s, z, x) in lines {
        t += &line(s, z, x);
    }
    t
}

/// Z on each qubit by itself.
fn all_z(n: usize) -> String {
    text(&(0..n).map(|j| (0, 1 << j, 0)).collect::<Vec<_>>())
}

const EXAMPLE: &str =
    "sign z x\n0 0000000000000000 0000000000000003\n0 0000000000000003 0000000000000000\n";
const ANSWER: &str = "qubit code neighbours used\n0 0 0000000000000002 0\n1 8 0000000000000001 0\n";

// ---- accepted texts
#[test]
fn the_example() {
    assert_eq!(run(EXAMPLE.as_bytes()), ANSWER);
}

#[test]
fn small_lists() {
    // −XX, ZZ; XX, −YY; +Y; −Z
    assert_eq!(
        run(text(&[(1, 0, 3), (0, 3, 0)]).as_bytes()),
        "qubit code neighbours used\n0 2 0000000000000002 0\n1 8 0000000000000001 0\n"
    );
    assert_eq!(run(text(&[(0, 0, 3), (1, 3, 3)]).as_bytes()), ANSWER);
    assert_eq!(
        run(text(&[(0, 1, 1)]).as_bytes()),
        "qubit code neighbours used\n0 4 0000000000000000 0\n"
    );
    assert_eq!(
        run(text(&[(1, 1, 0)]).as_bytes()),
        "qubit code neighbours used\n0 10 0000000000000000 0\n"
    );
}

#[test]
fn sixty_four_lines_pass() {
    let out = run(all_z(64).as_bytes());
    let mut expected = String::from("qubit code neighbours used\n");
    for q in 0..64 {
        expected += &format!("{q} 8 {:016x} 0\n", 0);
    }
    assert_eq!(out, expected);
}

// A graph's generators, multiplied at random: the record is the graph's, with codes 0.
#[test]
fn random_graphs_of_64_qubits() {
    for seed in 1..=8u64 {
        let mut random = Random::new(seed);
        let mut graph = [0u64; 64];
        for j in 0..64 {
            for k in j + 1..64 {
                if random.below(3) == 0 {
                    graph[j] |= 1 << k;
                    graph[k] |= 1 << j;
                }
            }
        }
        // i to the phase, times X to the x, times Z to the z, at each place
        let mut rows: Vec<(u32, u64, u64)> = (0..64).map(|j| (0, graph[j], 1 << j)).collect();
        for _ in 0..2000 {
            let (i, j) = (random.below(64), random.below(64));
            if i != j {
                let (a, b) = (rows[i], rows[j]);
                rows[i] = (
                    (a.0 + b.0 + 2 * (a.1 & b.2).count_ones()) % 4,
                    a.1 ^ b.1,
                    a.2 ^ b.2,
                );
            }
        }
        // a letter Y is i times X times Z
        let lines: Vec<(u8, u64, u64)> = rows
            .iter()
            .map(|&(p, z, x)| {
                let turns = (p + 3 * (z & x).count_ones()) % 4;
                assert_eq!(turns % 2, 0);
                ((turns / 2) as u8, z, x)
            })
            .collect();
        let mut expected = String::from("qubit code neighbours used\n");
        for (q, w) in graph.iter().enumerate() {
            expected += &format!("{q} 0 {w:016x} 0\n");
        }
        let out = run(text(&lines).as_bytes());
        assert_eq!(out.lines().count(), 65);
        assert_eq!(out, expected, "seed {seed}");
    }
}

// ---- refusal 1
#[test]
fn empty_input_and_names_alone() {
    refuses(1, "");
    refuses(2, NAMES);
}

#[test]
fn the_names_line_is_literal() {
    for t in [
        "\n",
        "sign z x",
        "sign z x ",
        "sign z x \n",
        " sign z x\n",
        "Sign z x\n",
        "sign x z\n",
        "sign  z x\n",
        "sign\tz x\n",
        "sign z\n",
        "sign z x\r\n",
        "sign z x\n\n",
        "\nsign z x\n",
        "sign z x\nsign z x\n",
        "sign z x\n ",
        "sign z x\n\0",
        "\u{feff}sign z x\n",
        "qubit code neighbours used\n",
    ] {
        refuses(1, t);
    }
    let lines = line(0, 0, 1);
    refuses(1, &lines);
}

#[test]
fn malformed_lines() {
    let z = "0000000000000000";
    let x = "0000000000000001";
    for bad in [
        format!("0 {z} {x}\r\n"),
        format!("0 {z} {x}"),
        format!("0 {z} {x} \n"),
        format!("0 {z} {x}\n\n"),
        format!("\n0 {z} {x}\n"),
        format!("0 {z} {x}\n "),
        format!("0 {z} {x}\n0"),
        format!("0 {z} {x}\n\0"),
        format!(" 0 {z} {x}\n"),
        format!("0  {z} {x}\n"),
        format!("0 {z}  {x}\n"),
        format!("0\t{z} {x}\n"),
        format!("0 {z}\t{x}\n"),
        format!("0 {} {x}\n", &z[1..]),
        format!("0 0{z} {x}\n"),
        format!("0 {z} {}\n", &x[1..]),
        format!("0 {z} 0{x}\n"),
        format!("0 000000000000000A {x}\n"),
        format!("0 {z} 000000000000000F\n"),
        format!("0 000000000000000g {x}\n"),
        format!("0 0x00000000000000 {x}\n"),
        format!("0 00000000000000/0 {x}\n"),
        format!("0 00000000000000:0 {x}\n"),
        format!("0 00000000000000`0 {x}\n"),
        format!("0 {z}\n"),
        format!("0 {z} {x} {x}\n"),
        format!("00 {z} {x}\n"),
        format!("+ {z} {x}\n"),
        format!("- {z} {x}\n"),
        format!("-1 {z} {x}\n"),
        format!("a {z} {x}\n"),
        format!("/ {z} {x}\n"),
        format!(": {z} {x}\n"),
        format!("{z} {x}\n"),
        format!(" {z} {x}\n"),
    ] {
        refuses(1, &format!("{NAMES}{bad}"));
        // also where good lines stand before it, and behind it
        refuses(1, &format!("{}{bad}", all_z(2)));
        if bad.ends_with('\n') && !bad.starts_with('\n') && !bad.contains("\n\n") {
            refuses(1, &format!("{NAMES}{bad}{}", line(0, 1, 0)));
        }
    }
}

// A blank line between two good lines.
#[test]
fn blank_lines() {
    refuses(1, &format!("{NAMES}{}\n{}", line(0, 0, 3), line(0, 3, 0)));
    refuses(1, &format!("{NAMES}\n{}{}", line(0, 0, 3), line(0, 3, 0)));
    refuses(1, &format!("{NAMES}{}{}\n", line(0, 0, 3), line(0, 3, 0)));
}

#[test]
fn every_byte_of_the_example_matters() {
    for at in 0..EXAMPLE.len() {
        // one byte less, one byte twice, a byte that is no part of any text
        let mut less = EXAMPLE.as_bytes().to_vec();
        less.remove(at);
        assert_eq!(run(&less), refused(1), "without byte {at}");
        let mut other = EXAMPLE.as_bytes().to_vec();
        other[at] = 0xff;
        assert_eq!(run(&other), refused(1), "byte {at} changed");
    }
    for end in 1..EXAMPLE.len() {
        let expected = match end {
            9 => refused(2),
            // one line: XX on one qubit has a stray bit
            45 => refused(5),
            _ => refused(1),
        };
        assert_eq!(
            run(&EXAMPLE.as_bytes()[..end]),
            expected,
            "the first {end} bytes"
        );
    }
}

#[test]
fn line_1_is_judged_over_the_whole_text() {
    // a stray bit, a sign 2, no commutation, dependence, and then a malformed line
    let bad = "0 0 0\n";
    refuses(1, &format!("{NAMES}{}{bad}", line(0, 0, 1 << 63)));
    refuses(1, &format!("{NAMES}{}{bad}", line(2, 0, 1)));
    refuses(
        1,
        &format!("{NAMES}{}{}{bad}", line(0, 0, 1), line(0, 1, 0)),
    );
    refuses(
        1,
        &format!("{NAMES}{}{}{bad}", line(0, 0, 3), line(0, 0, 3)),
    );
}

// ---- refusal 2
#[test]
fn more_than_64_lines() {
    let good = line(0, 0, 0);
    let many = |n: usize| format!("{NAMES}{}", good.repeat(n));
    refuses(10, &many(64));
    refuses(2, &many(65));
    refuses(2, &many(66));
    refuses(2, &many(128));
    refuses(2, &format!("{}{}", all_z(64), good));
    refuses(1, &format!("{}x\n", many(65)));
    refuses(1, &format!("{}0", many(65)));
    refuses(2, &many(70_000));
    refuses(1, &format!("{}!", many(70_000)));
    refuses(1, &format!("{}!{}", many(70_000), good));
    // counts that a byte or a 16-bit number would lose
    refuses(2, &many(256));
    refuses(2, &many(257));
    refuses(2, &many(65_536));
    refuses(2, &many(65_537));
    refuses(2, &many(65_600));
}

#[test]
fn two_comes_before_the_other_lines() {
    let wild = line(9, u64::MAX, u64::MAX);
    refuses(2, &format!("{NAMES}{}", wild.repeat(65)));
    refuses(2, &format!("{}{wild}", all_z(64)));
}

// ---- refusals 5, 6, 9, 10 and their order
#[test]
fn stray_bits() {
    refuses(5, &text(&[(0, 0, 2)]));
    refuses(5, &text(&[(0, 2, 0)]));
    refuses(5, &text(&[(0, 0, 1 << 63)]));
    let mut rows: Vec<(u8, u64, u64)> = (0..63).map(|j| (0, 1 << j, 0)).collect();
    rows[62].1 |= 1 << 63;
    refuses(5, &text(&rows));
    // 5 before 6, 9 and 10, also where it comes later in the text
    refuses(5, &text(&[(2, 0, 1), (0, 4, 0)]));
    refuses(5, &text(&[(0, 0, 1), (0, 1, 4)]));
    refuses(5, &text(&[(0, 4, 0), (0, 4, 0)]));
}

#[test]
fn sign_digits() {
    for s in 2..=9 {
        refuses(6, &text(&[(s, 0, 1)]));
        refuses(6, &text(&[(0, 0, 3), (s, 3, 0)]));
        // before 9 and 10
        refuses(6, &text(&[(s, 0, 1), (0, 1, 0)]));
        refuses(6, &text(&[(s, 0, 3), (0, 0, 3)]));
        refuses(5, &text(&[(s, 0, 2)]));
    }
}

#[test]
fn no_commutation_and_dependence() {
    refuses(9, &text(&[(0, 0, 1), (0, 1, 0)]));
    refuses(9, &text(&[(0, 0, 3), (0, 1, 0)]));
    refuses(10, &text(&[(0, 0, 3), (0, 0, 3)]));
    refuses(10, &text(&[(0, 0, 3), (1, 0, 3)]));
    refuses(10, &text(&[(0, 0, 0)]));
    refuses(10, &text(&[(1, 0, 0)]));
    refuses(10, &text(&[(0, 0, 3), (0, 0, 0)]));
    refuses(10, &text(&[(0, 0, 3), (0, 3, 0), (1, 3, 3)]));
    // 9 before 10
    refuses(9, &text(&[(0, 0, 1), (0, 1, 0), (0, 0, 0)]));
}

// ---- the input in blocks
#[test]
fn byte_by_byte() {
    let pause = Duration::from_millis(1);
    assert_eq!(run_pieces(EXAMPLE.as_bytes().chunks(1), pause), ANSWER);
    assert_eq!(
        run_pieces(EXAMPLE.as_bytes()[..80].chunks(1), pause),
        refused(1)
    );
}

#[test]
fn blocks_of_many_sizes() {
    let whole = all_z(64);
    let answer = run(whole.as_bytes());
    for size in [1, 2, 3, 7, 9, 10, 36, 37, 64, 100, 1000, 2313] {
        assert_eq!(
            run_pieces(whole.as_bytes().chunks(size), Duration::from_micros(200)),
            answer,
            "blocks of {size}"
        );
    }
    assert_eq!(whole.len(), 2313);
}

// A pause behind each place of the example.
#[test]
fn one_pause_anywhere() {
    let bytes = EXAMPLE.as_bytes();
    for at in 0..=bytes.len() {
        let pieces = [&bytes[..at], &bytes[at..]];
        assert_eq!(
            run_pieces(pieces.into_iter(), Duration::from_millis(2)),
            ANSWER,
            "a pause behind byte {at}"
        );
    }
}

// Texts longer than one block of the program, in blocks that end inside lines.
#[test]
fn long_texts_in_blocks() {
    let many = format!("{NAMES}{}", line(0, 0, 0).repeat(10_000));
    let bad = format!("{many}!");
    let blank = format!("{many}\n");
    for size in [4095, 4096, 4097, 65_535, 65_536, 65_537] {
        assert_eq!(
            run_pieces(many.as_bytes().chunks(size), Duration::from_millis(1)),
            refused(2)
        );
        assert_eq!(
            run_pieces(bad.as_bytes().chunks(size), Duration::from_millis(1)),
            refused(1)
        );
        assert_eq!(
            run_pieces(blank.as_bytes().chunks(size), Duration::from_millis(1)),
            refused(1)
        );
    }
}

// A malformed byte at each place about the end of the program's first block.
#[test]
fn malformed_about_the_end_of_a_block() {
    let many = format!("{NAMES}{}", line(0, 0, 0).repeat(4_000));
    for at in 65_530..65_542 {
        let mut bytes = many.as_bytes().to_vec();
        bytes[at] = b'!';
        assert_eq!(run(&bytes), refused(1), "byte {at}");
    }
}
