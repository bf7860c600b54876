from sukhlent import State
ring = State.graph(6, [(q, (q + 1) % 6) for q in range(6)])
ring.gate(2, "S")
print(ring.measure("Y", 0, 1), "entanglement of 1 and 2 with the rest:", ring.cut([1, 2]))
print(*ring.generators().strings())
print("onto a plain ring of five:", *ring.compare(State.graph(6, [(q, q % 5 + 1) for q in range(1, 6)])).gates)
ring.draw("record.svg")
