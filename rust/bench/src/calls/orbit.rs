//! `orbit` on the graphs of the largest orbit on six vertices.

use super::Line;
use crate::plain;
use crate::timing::Ready;
use sukhlent::raw;

/// The signature that both calls have.
pub type Orbit = fn(u64, &[u64], &mut [u16], &mut u64) -> u8;

/// The ring of six, whose orbit has 372 graphs.
const RING: [u64; 6] = [0b100010, 0b000101, 0b001010, 0b010100, 0b101000, 0b010001];
/// The number of graphs in a timed sample.
const AT_ONCE: usize = 4;

/// A graph as the calls take it.
type Graph = Vec<u64>;

/// What a call writes.
#[derive(Debug, PartialEq)]
struct Answer {
    list: Vec<u16>,
    count: u64,
}

/// The line of the largest orbit.
pub fn line() -> Line {
    let graphs: Vec<Graph> = sukhlent::orbit(&RING).expect("a ring").graphs().collect();
    assert_eq!(graphs.len(), 372);
    graphs.iter().for_each(|graph| assert_same_answers(graph));
    let names = ("orbit", 6, "the 372 graphs of the largest orbit");
    Line::measured(names, &graphs, AT_ONCE, [engine, in_plain_rust])
}

fn engine(graphs: &[Graph]) -> Ready<'_> {
    let mut answer = Answer::empty();
    Box::new(move || run(&mut answer, raw::orbit, graphs))
}

fn in_plain_rust(graphs: &[Graph]) -> Ready<'_> {
    let mut answer = Answer::empty();
    Box::new(move || run(&mut answer, plain::orbit, graphs))
}

/// Lists every orbit. The list is used again and again, and not cleared between.
fn run(answer: &mut Answer, call: Orbit, graphs: &[Graph]) -> u64 {
    graphs.iter().fold(0, |sum, graph| {
        let refusal = answer.write(call, graph);
        let last = answer.list[answer.count as usize - 1];
        sum ^ answer.count ^ u64::from(last) ^ u64::from(refusal)
    })
}

impl Answer {
    fn empty() -> Answer {
        Answer {
            list: vec![0; raw::ORBIT_PLACES],
            count: 0,
        }
    }

    /// Writes the answer of a call on a graph, and gives its number.
    fn write(&mut self, call: Orbit, graph: &[u64]) -> u8 {
        call(graph.len() as u64, graph, &mut self.list, &mut self.count)
    }
}

/// Panics unless both calls accept a graph and write the same.
fn assert_same_answers(graph: &[u64]) {
    let [engine, plain] = [raw::orbit as Orbit, plain::orbit].map(|call| {
        let mut answer = Answer::empty();
        (answer.write(call, graph), answer)
    });
    assert_eq!(engine.0, 0);
    assert_eq!(engine, plain);
}
