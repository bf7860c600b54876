// A day with include/sukhlent.hpp: records are values, a refusal is read where it is awaited and thrown where it is not.
#include <cstdio>
#include <vector>

#include "sukhlent.hpp"

using sukhlent::List;
using sukhlent::Pauli;
using sukhlent::Record;
using sukhlent::Step;

// Bell from a circuit and from strings.
static void bell()
{
    Record made = Record::zeros(2).value();
    made.gate(0, SUKHLENT_GATE_H).value();
    made.cnot(0, 1).value();
    const List list = List::read("+XX\n+ZZ\n").value();
    std::printf("one record: %d\n%s", made == Record::reduce(list).value(), made.expand().value().text().value().c_str());
    if (const auto done = made.cz(0, 0); !done)
        std::printf("refused %d: %s\n", static_cast<int>(done.refusal()), sukhlent::text(done.refusal()));
    Record other = made; // a copy of its own
    const auto measured = other.measure(Pauli::Z, 0, true).value();
    std::printf("outcome %d, determined %d; the first is %s\n", measured.outcome, measured.determined,
                made == other ? "changed" : "as it was");
    try {
        other.measure(Pauli::Z, 1, false).value();
    } catch (const sukhlent::Refused &refused) {
        std::printf("thrown: %s\n", refused.what());
    }
}

// A ring of six: entanglement, an expectation value, an amplitude, steps in one run, and the way onto another record.
static void ring()
{
    const std::vector<std::pair<std::uint64_t, std::uint64_t>> edges = {{0, 1}, {1, 2}, {2, 3}, {3, 4}, {4, 5}, {5, 0}};
    Record ring = Record::graph(6, edges).value();
    std::printf("cut %d, expectation %d, orbit %d\n", static_cast<int>(ring.cut(3).value()),
                static_cast<int>(ring.expectation(0x22, 1).value()), static_cast<int>(ring.orbit().value().size()));
    const auto amplitude = ring.amplitude(3).value();
    std::printf("amplitude %g%+gi, probability %g\n", amplitude.re, amplitude.im, amplitude.p);
    Record next = ring;
    const std::vector<Step> steps = {Step::gate(2, SUKHLENT_GATE_S), Step::cz(1, 1), Step::complement(4)};
    for (const auto &step : next.run(steps).value())
        std::printf("step: %s\n", sukhlent::text(step.refusal));
    std::printf("onto it:");
    for (const int code : ring.equivalent(next).value().choice)
        std::printf(" %d", code);
    std::printf("\nimage at 0: %d\n", static_cast<int>(ring.image().value().neighbours[0]));
}

// A store, two groups, and values that are refused before a record is made.
static void rest()
{
    sukhlent::Store store;
    store.save(7, Record::zeros(3).value()).value();
    std::printf("held: %d qubits; another name: %s\n", static_cast<int>(store.get(7).value().size()),
                sukhlent::text(store.get(8).refusal()));
    sukhlent::Groups groups(1);
    std::printf("group 0 at the qubit of group 1: %s\n", sukhlent::text(groups.gate(0, 0, SUKHLENT_GATE_X).refusal()));
    const auto seen = groups.observe(1, sukhlent::Pauli::Z, 0, true).value();
    std::printf("group 1 by lot: %d, determined %d\n", seen.outcome, seen.determined);
    std::printf("a new photon: %s\n", sukhlent::text(groups.renew(1, 0, SUKHLENT_PHOTON_PLUS_Z).refusal()));
    const std::uint64_t loop[] = {1};
    const std::uint8_t codes[] = {0};
    std::printf("a loop: %s\n", sukhlent::text(Record::of(loop, codes).refusal()));
    std::printf("+X +Z: %s\n", sukhlent::text(List::read("+XI\n+ZI\n").refusal()));
    std::printf("65 qubits: %d\n", static_cast<int>(Record::zeros(65).refusal()));
    std::printf("%s", sukhlent::generate(4, 2, 1).value().c_str());
}

int main()
{
    bell();
    ring();
    rest();
}
