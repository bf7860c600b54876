//! Arguments of calls: valid ones, some of them damaged in places, and noise.

use crate::common::damage::{damage_list, damage_record};
use crate::common::local::{complemented_record, sent};
use crate::common::parity::Joint;
use crate::common::record_text::{plain_text, Places, ReadRecord, PLACES};
use crate::common::reference::{product, strings_text};
use crate::common::runs::Steps;
use crate::common::source::Source;
use crate::common::{list, mixed, random_components, random_record, random_rows, random_sizes};
use crate::common::{rows, use_up};
use crate::common::{At, Operation, OrbitCall, Random, ReadCall, RecordPairCall, Side};
use crate::common::{GenerateCall, ImageLengths, Lengths, Letters, ListCall, PairCall, RecordCall};
use sukhlent::{expand, GeneratorList, Record};

/// What is done to valid arguments: mostly nothing or little; one in sixteen calls gets noise.
enum Harm {
    Faults(usize),
    Noise,
}

fn harm(random: &mut Random) -> Harm {
    match random.below(16) {
        0 => Harm::Noise,
        1..=8 => Harm::Faults(1 + random.below(3)),
        _ => Harm::Faults(0),
    }
}

/// A number of qubits: mostly small, at times any, at times near a bound.
pub fn size(random: &mut Random) -> usize {
    match random.below(8) {
        0 => 1 + random.below(64),
        1 => [1, 2, 20, 21, 63, 64][random.below(6)],
        _ => 1 + random.below(8),
    }
}

/// A call on a list of n generators.
pub fn list_call(random: &mut Random, n: usize) -> ListCall {
    match harm(random) {
        Harm::Noise => noisy_list(random),
        Harm::Faults(count) => {
            let mut call = ListCall::on(&list(&random_rows(random, n)));
            (0..count).for_each(|_| damage_list(random, &mut call));
            call
        }
    }
}

/// A product of rows of a list of n, of any letters every second time: mostly of its own rows, at
/// times by any word.
pub fn product_call(random: &mut Random, n: usize) -> (ListCall, u64) {
    let mut call = list_call(random, n);
    if random.below(2) == 0 {
        let words = call.z.iter_mut().chain(&mut call.x);
        words.for_each(|word| *word ^= random.word() >> (64 - n));
    }
    (call, word_over(random, n))
}

/// Two lists to compare: the second is mostly an image of the first, else another list, at times of
/// another size.
pub fn pair_call(random: &mut Random) -> PairCall {
    let n = match random.below(8) {
        0 => size(random),
        1 => 20,
        2 => 21 + random.below(44),
        _ => 1 + random.below(8),
    };
    let first = match random.below(4) {
        0 => component_call(random),
        _ => list_call(random, n),
    };
    let accepted = first.due() == (0, 0);
    let second = match random.below(8) {
        0 => {
            let n = size(random);
            list_call(random, n)
        }
        1 | 2 => list_call(random, n),
        _ if accepted => ListCall::on(&sent_and_mixed(random, &first.list())),
        _ => list_call(random, n),
    };
    PairCall {
        choice: first.codes,
        list: list_places(random),
        first,
        second,
    }
}

/// Two records to compare: the second mostly has the group of the first under some codes, else it
/// is another record, at times of another size; one or both may be damaged.
pub fn record_pair_call(random: &mut Random) -> RecordPairCall {
    let n = match random.below(8) {
        0 => size(random),
        1 => 20,
        2 => 21 + random.below(44),
        _ => 1 + random.below(8),
    };
    let first = match random.below(4) {
        0 => {
            let largest = [4, 20, 24][random.below(3)];
            let sizes = random_sizes(random, n, largest);
            random_components(random, &sizes)
        }
        _ => random_record(random, n),
    };
    let second = match random.below(8) {
        0 => {
            let n = size(random);
            random_record(random, n)
        }
        1 | 2 => random_record(random, n),
        _ => Record {
            codes: first.codes.iter().map(|_| random.below(24) as u8).collect(),
            ..first.clone()
        },
    };
    let mut call = RecordPairCall::on(&first, &second);
    if random.below(4) == 0 {
        damage_record(random, &mut call.first);
    }
    if random.below(4) == 0 {
        damage_record(random, &mut call.second);
    }
    if random.below(8) == 0 {
        call.choice = random.below(66);
    }
    call.list = list_places(random);
    call
}

/// A call on a list whose reduced graph falls into components, at times one of more than 20 vertices.
fn component_call(random: &mut Random) -> ListCall {
    let n = size(random);
    let largest = [4, 20, 24][random.below(3)];
    let sizes = random_sizes(random, n, largest);
    let record = random_components(random, &sizes);
    let given = expand(&record).expect("a simple graph");
    ListCall::on(&list(&mixed(random, &rows(&given))))
}

/// Mixed generators of a list sent through random codes.
fn sent_and_mixed(random: &mut Random, given: &GeneratorList) -> GeneratorList {
    let choice: Vec<u8> = (0..given.n()).map(|_| random.below(24) as u8).collect();
    list(&mixed(random, &rows(&sent(given, &choice))))
}

/// An expansion of a record of n vertices.
pub fn expand_call(random: &mut Random, n: usize) -> RecordCall<Lengths> {
    let [signs, z, x] = lengths(random, n);
    let record = used_record(random, n);
    harmed(random, record, Lengths { signs, z, x })
}

/// An image of a record of n vertices.
pub fn image_call(random: &mut Random, n: usize) -> RecordCall<ImageLengths> {
    let [image, signs] = lengths(random, n);
    let list = list_places(random);
    let record = record(random, n);
    harmed(random, record, ImageLengths { image, signs, list })
}

/// A word: mostly one over n vertices, at times any.
fn word_over(random: &mut Random, n: usize) -> u64 {
    match random.below(8) {
        0 => number(random),
        _ => random.word() >> (64 - n),
    }
}

/// A cut of a record of n vertices: mostly into sides of its own vertices, at times by any word.
pub fn cut_call(random: &mut Random, n: usize) -> RecordCall<Side> {
    let side = word_over(random, n);
    let record = used_record(random, n);
    harmed(random, record, Side(side))
}

/// An amplitude of a record of n vertices: mostly at a word of its own qubits, at times at any word.
pub fn amplitude_call(random: &mut Random, n: usize) -> RecordCall<At> {
    let y = word_over(random, n);
    let record = used_record(random, n);
    harmed(random, record, At(y))
}

/// The value of a row on a record of n vertices: mostly of an element of its group, or of one with a
/// letter changed, at times of any words.
pub fn expectation_call(random: &mut Random, n: usize) -> RecordCall<Letters> {
    let record = used_record(random, n);
    let list = expand(&record).expect("a record");
    let element = product(&list, random.word() >> (64 - n));
    let mut row = Letters {
        z: element.z,
        x: element.x,
    };
    match random.below(8) {
        0 => row.z = number(random),
        1 => row.x = number(random),
        2 => row.z ^= 1 << random.below(n),
        3 => row.x ^= 1 << random.below(n),
        4 => row.z = random.word() >> (64 - n),
        _ => (),
    }
    harmed(random, record, row)
}

/// A row as above, with a bit by lot: mostly one that acts on no used qubit.
pub fn row_call(random: &mut Random, n: usize) -> RecordCall<Joint> {
    let call = expectation_call(random, n);
    let kept = match random.below(4) {
        0 => u64::MAX,
        _ => !call.used,
    };
    let noisy = random.below(16) == 0;
    let byte = random.word() as u8;
    let with = Joint {
        z: call.with.z & kept,
        x: call.with.x & kept,
        bit: if noisy { byte } else { byte % 2 },
    };
    RecordCall {
        n: call.n,
        neighbours: call.neighbours,
        codes: call.codes,
        used: call.used,
        with,
    }
}

/// A job: mostly of few steps, at times near the limit, at times with any numbers or another buffer.
pub fn generate_call(random: &mut Random) -> GenerateCall {
    let n = match random.below(8) {
        0 => number(random),
        _ => size(random) as u64,
    };
    let count = match random.below(16) {
        0 => number(random),
        1 => 4090 + random.below(10) as u64,
        _ => random.below(40) as u64,
    };
    let mut call = GenerateCall::of(n, count, random.word());
    match random.below(16) {
        0 => call.places = random.below(1 << 17),
        1 => call.seed = 0,
        _ => (),
    }
    call
}

/// A text of n lines: of a list that is mostly accepted, with some bytes changed, or noise; at times
/// of more lines than 64.
pub fn read_call(random: &mut Random, n: usize) -> ReadCall {
    let mut text = match random.below(16) {
        0 => noisy_text(random),
        1 => many_lines(random),
        _ => strings_text(&list(&random_rows(random, n))).into_bytes(),
    };
    let faults = match random.below(4) {
        0 => 1 + random.below(3),
        _ => 0,
    };
    (0..faults).for_each(|_| damage_text(random, &mut text));
    let mut call = ReadCall::on(&text);
    if random.below(16) == 0 {
        call.lengths[random.below(3)] = random.below(200);
    }
    call
}

/// A record of n vertices to be written, into a buffer that mostly has its places.
pub fn write_record_call(random: &mut Random, n: usize) -> RecordCall<Places> {
    let places = match random.below(16) {
        0 => random.below(2000),
        _ => PLACES,
    };
    let record = used_record(random, n);
    harmed(random, record, Places(places))
}

/// The text of a record of n vertices, with some bytes changed at times, or noise; at times of more
/// lines than 64.
pub fn read_record_call(random: &mut Random, n: usize) -> ReadRecord {
    let lines = match random.below(16) {
        0 => 65 + random.below(60),
        _ => n.clamp(1, 64),
    };
    let mut text = match random.below(16) {
        0 => noisy_text(random),
        _ => plain_text(&Record {
            neighbours: vec![0; lines],
            codes: (0..lines).map(|_| 2 * random.below(14) as u8).collect(),
            used: 0,
        })
        .into_bytes(),
    };
    if lines <= 64 && random.below(2) == 0 {
        let mut record = used_record(random, lines);
        match random.below(4) {
            0 => record.neighbours[random.below(lines)] ^= 1 << random.below(64),
            1 => record.used ^= 1 << random.below(lines),
            _ => (),
        }
        text = plain_text(&record).into_bytes();
    }
    let faults = match random.below(4) {
        0 => 1 + random.below(3),
        _ => 0,
    };
    (0..faults).for_each(|_| damage_text(random, &mut text));
    let mut call = ReadRecord::on(&text);
    if random.below(16) == 0 {
        call.lengths[random.below(2)] = random.below(100);
    }
    call
}

/// A graph on mostly up to 5 vertices, at times harmed in a word, with another number of vertices or
/// another list, or any words.
pub fn orbit_call(random: &mut Random) -> OrbitCall {
    let n = match random.below(16) {
        0 => 6,
        _ => 1 + random.below(5),
    };
    let mut call = OrbitCall::on(&graph(random, n));
    match random.below(16) {
        0 => call.n = number(random),
        1 => call.places = random.below(1 << 16),
        2 => call.neighbours = words(random),
        3 => call.neighbours[random.below(n)] ^= 1 << random.below(64),
        4 => call.neighbours[random.below(n)] ^= 1 << random.below(n),
        _ => (),
    }
    call
}

/// One random fault of a text: a byte changed, left out or put in, a letter or a sign changed, a
/// line exchanged with another or put in its place.
fn damage_text(random: &mut Random, text: &mut Vec<u8>) {
    let place = random.below(text.len().max(1));
    let line = text.iter().position(|&byte| byte == b'\n').unwrap_or(0) + 1;
    let lines = text.len() / line;
    let known = b"IXYZ+-\n"[random.below(7)];
    match random.below(7) {
        _ if text.is_empty() => text.push(random.word() as u8),
        0 => text[place] = random.word() as u8,
        1 => drop(text.drain(place..=place)),
        2 => text.insert(place, known),
        3 => text[place] = known,
        4 => text[place] = b"IXYZ"[random.below(4)],
        _ if lines > 1 => {
            let (from, to) = random.pair_below(lines);
            text.copy_within(from * line..(from + 1) * line, to * line);
        }
        _ => text[place] = b'I',
    }
}

/// Any bytes, mostly those of texts.
fn noisy_text(random: &mut Random) -> Vec<u8> {
    let byte = |random: &mut Random| match random.below(8) {
        0 => random.word() as u8,
        _ => b"IXYZ+-\n"[random.below(7)],
    };
    let length = match random.below(2) {
        0 => random.below(12),
        _ => random.below(200),
    };
    (0..length).map(|_| byte(random)).collect()
}

/// A text of more lines than 64, or of none.
fn many_lines(random: &mut Random) -> Vec<u8> {
    let n = [0, 65, 66 + random.below(40)][random.below(3)];
    let mut text = Vec::new();
    for _ in 0..n {
        text.push(b"+-"[random.below(2)]);
        text.extend((0..n).map(|_| b"IXYZ"[random.below(4)]));
        text.push(b'\n');
    }
    text
}

/// Places for the text of a list: mostly its own.
pub fn text_places(random: &mut Random, call: &ListCall) -> usize {
    match random.below(16) {
        0 => random.below(5000),
        _ => call.text_places(),
    }
}

/// Lengths of answer buffers: n, and at times one of them any.
fn lengths<const COUNT: usize>(random: &mut Random, n: usize) -> [usize; COUNT] {
    let mut lengths = [n; COUNT];
    if random.below(16) == 0 {
        lengths[random.below(COUNT)] = random.below(200);
    }
    lengths
}

/// A call of one kind, 0 to 3, on a record of n vertices in place. Mostly its own arguments are in
/// range or one too large; at times they are any numbers. Every second measurement is one in range,
/// since few others meet a forbidden bit.
pub fn in_place_call(random: &mut Random, kind: usize, n: usize) -> RecordCall<Operation> {
    let operation = match random.below(8) {
        0 => noisy_operation(random, kind),
        1..=4 if kind == 2 => {
            let [pauli, bit] = [1 + random.below(3), random.below(2)];
            Operation::Measure(pauli as u8, random.below(n) as u64, bit as u8)
        }
        _ => Operation::loose(random, kind, n),
    };
    let record = used_record(random, n);
    harmed(random, record, operation)
}

/// An observation (0) or a renewal (1) on a record of n vertices. Every second renewal names a used
/// qubit, if there is one, since few others do.
pub fn source_call(random: &mut Random, kind: usize, n: usize) -> RecordCall<Source> {
    let record = used_record(random, n);
    let used: Vec<usize> = (0..n).filter(|q| record.used >> q & 1 == 1).collect();
    let qubit = match random.below(8) {
        0 => number(random),
        1..=4 if !used.is_empty() => used[random.below(used.len())] as u64,
        _ => random.below(n + 1) as u64,
    };
    let byte = random.word() as u8;
    let noisy = random.below(8) == 0;
    let with = match kind {
        0 if noisy => Source::Observe(byte, qubit, random.word() as u8),
        0 => Source::Observe(random.below(5) as u8, random.below(n + 1) as u64, byte % 2),
        _ if noisy => Source::Renew(qubit, byte),
        _ => Source::Renew(qubit, 2 * (byte % 6)),
    };
    harmed(random, record, with)
}

/// Steps on a record of n vertices: mostly few, and in range or one too large; at times of any numbers, more than 4,096, or
/// in slices of other lengths.
pub fn run_call(random: &mut Random, n: usize) -> RecordCall<Steps> {
    let count = match random.below(32) {
        0 => 4097 + random.below(100),
        1 => 4000 + random.below(97),
        _ => random.below(130),
    };
    let noisy = random.below(8) == 0;
    let steps: Vec<_> = (0..count).map(|_| run_step(random, n, noisy)).collect();
    let mut steps = Steps::of(&steps);
    if random.below(16) == 0 {
        let lengths = [
            &mut steps.refusals,
            &mut steps.outcomes,
            &mut steps.determined,
        ];
        *lengths[random.below(3)] = random.below(200);
    }
    if random.below(16) == 0 {
        [&mut steps.a, &mut steps.b, &mut steps.value][random.below(3)].push(0);
    }
    let record = used_record(random, n);
    harmed(random, record, steps)
}

/// The operation, the qubits and the value of a step.
fn run_step(random: &mut Random, n: usize, noisy: bool) -> (u8, u16, u16, u16) {
    if noisy && random.below(16) == 0 {
        let [op, a, b, value] = [0; 4].map(|_: u16| random.word() as u16);
        return (op as u8, a, b, value);
    }
    let op = random.below(7) as u8;
    let [a, b] = [0, 1].map(|_| random.below(n + 1) as u16);
    match op {
        0 => (op, a, 0, random.below(25) as u16),
        2 | 5 => (op, a, 0, random.below(7) as u16),
        6 => (op, a, 0, random.below(13) as u16),
        3 => (op, a, 0, 0),
        _ => (op, a, b, 0),
    }
}

/// A record, at times harmed, with what goes with it.
fn harmed<W>(random: &mut Random, record: Record, with: W) -> RecordCall<W> {
    match harm(random) {
        Harm::Noise => noisy_record(random, with),
        Harm::Faults(count) => {
            let mut call = RecordCall::with(&record, with);
            (0..count).for_each(|_| damage_record(random, &mut call));
            call
        }
    }
}

/// A random record: every second one has used vertices, mostly few of them.
fn used_record(random: &mut Random, n: usize) -> Record {
    let mut record = record(random, n);
    let count = match random.below(8) {
        0 => random.below(n + 1),
        1..=3 => 1 + random.below(3),
        _ => 0,
    };
    for _ in 0..count {
        let q = random.below(n);
        use_up(&mut record, q, 2 * random.below(6) as u8);
    }
    record
}

/// A random record: every second one stands for a graph state with signs, others have codes of few
/// kinds or any.
fn record(random: &mut Random, n: usize) -> Record {
    let neighbours = graph(random, n);
    let kinds: Vec<u8> = match random.below(4) {
        0 => (0..24).collect(),
        1 => (0..2).map(|_| random.below(24) as u8).collect(),
        _ => return complemented_often(random, &neighbours),
    };
    let codes = (0..n).map(|_| kinds[random.below(kinds.len())]);
    Record {
        neighbours,
        codes: codes.collect(),
        used: 0,
    }
}

/// A random graph, with few edges or many.
fn graph(random: &mut Random, n: usize) -> Vec<u64> {
    let sparse = 1 + random.below(4);
    let mut neighbours = vec![0u64; n];
    for (a, b) in (0..n).flat_map(|a| (0..a).map(move |b| (a, b))) {
        let bit = (random.below(sparse) == 0) as u64;
        neighbours[a] |= bit << b;
        neighbours[b] |= bit << a;
    }
    neighbours
}

/// A graph state with random signs, its record complemented at a few vertices.
fn complemented_often(random: &mut Random, neighbours: &[u64]) -> Record {
    let signs = random.word();
    let codes = (0..neighbours.len()).map(|q| 2 * (signs >> q & 1) as u8);
    let mut record = Record {
        neighbours: neighbours.to_vec(),
        codes: codes.collect(),
        used: 0,
    };
    for _ in 0..random.below(6) {
        record = complemented_record(&record, random.below(neighbours.len()));
    }
    record
}

/// Any number, often a small one.
fn number(random: &mut Random) -> u64 {
    match random.below(4) {
        0 => random.word(),
        1 => 1 << random.below(64),
        _ => random.below(70) as u64,
    }
}

/// Places for a list of complementations: mostly 96.
fn list_places(random: &mut Random) -> usize {
    match random.below(32) {
        0 => random.below(200),
        1 => [0, 95, 97][random.below(3)],
        _ => 96,
    }
}

fn noisy_list(random: &mut Random) -> ListCall {
    let length = random.below(70);
    ListCall {
        n: number(random),
        signs: (0..length).map(|_| random.word() as u8).collect(),
        z: words(random),
        x: words(random),
        neighbours: random.below(200),
        codes: random.below(200),
    }
}

fn noisy_record<W>(random: &mut Random, with: W) -> RecordCall<W> {
    let length = random.below(70);
    RecordCall {
        n: number(random),
        neighbours: words(random),
        codes: (0..length).map(|_| random.word() as u8).collect(),
        used: number(random),
        with,
    }
}

fn noisy_operation(random: &mut Random, kind: usize) -> Operation {
    let [a, b] = [0, 1].map(|_| number(random));
    let [byte, bit] = [0, 1].map(|_| random.word() as u8);
    match kind {
        0 => Operation::Gate(a, byte),
        1 => Operation::Cz(a, b),
        2 => Operation::Measure(byte, a, bit),
        _ => Operation::Complement(a),
    }
}

fn words(random: &mut Random) -> Vec<u64> {
    (0..random.below(70)).map(|_| number(random)).collect()
}
