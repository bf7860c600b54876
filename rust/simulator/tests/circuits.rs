//! The stored circuits, which the tests in Python read, are what the simulator says.

#[path = "../examples/circuits.rs"]
#[allow(dead_code)]
mod circuits;

#[test]
fn the_stored_circuits_are_the_simulator_s() {
    let stored = include_str!("../../../python/tests/simulated.txt");
    assert_eq!(circuits::circuits(), stored);
}
