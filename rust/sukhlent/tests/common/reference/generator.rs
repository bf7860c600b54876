//! The generator by the request's words: numbers of any size and plain arithmetic.

/// One step of a job: the operation, the qubits a and b, and the value.
pub type Step = (&'static str, u64, u64, u64);

/// 64 bits; bits above them are lost.
const WORD: u128 = 1 << 64;

/// The next state, which is the draw.
pub fn draw(s: u64) -> u64 {
    let mut s = u128::from(s);
    s ^= s * 8192 % WORD;
    s ^= s / 128;
    s ^= s * 131_072 % WORD;
    s as u64
}

/// The step that a draw gives.
pub fn step(n: u64, d: u64) -> Step {
    let (a, b) = (d / 8 % n, d / 512 % n);
    let (code, pauli) = (d / 32_768 % 24, 1 + d / 32_768 % 3);
    let outcome = d / 1_099_511_627_776 % 2;
    match (["gate", "cz", "measure"][(d % 3) as usize], a == b) {
        ("gate", _) => ("gate", a, 0, code),
        ("cz", true) => ("gate", a, 0, 8),
        ("cz", false) => ("cz", a, b, 0),
        (measure, _) => (measure, a, 0, 2 * (pauli - 1) + outcome),
    }
}

/// The steps drawn from a seed.
pub fn steps(n: u64, count: u64, seed: u64) -> Vec<Step> {
    let draws = std::iter::successors(Some(draw(seed)), |&s| Some(draw(s)));
    draws.take(count as usize).map(|d| step(n, d)).collect()
}

/// The text of a job.
pub fn job_text(n: u64, count: u64, seed: u64) -> String {
    let lines = steps(n, count, seed).into_iter();
    let lines = lines.map(|(op, a, b, value)| format!("{op} {a} {b} {value}\n"));
    format!("qubits\n{n}\nop a b value\n{}", lines.collect::<String>())
}

/// The first line that is true of the arguments and of a buffer of so many bytes.
pub fn generate_refusal(n: u64, count: u64, seed: u64, places: usize) -> u8 {
    match (count > 4096, n == 0 || n > 64, places != 61_463, seed == 0) {
        (true, _, _, _) => 15,
        (_, true, _, _) => 2,
        (_, _, true, _) => 4,
        (_, _, _, true) => 6,
        _ => 0,
    }
}
