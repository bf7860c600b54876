// Stabilizer states on 1 to 64 qubits by the proved engine, compiled to WebAssembly. For node and for pages:
//
//   import { load, State } from "./sukhlent.mjs";
//   await load();                       // sukhlent.wasm stands beside this file
//   const bell = State.zeros(2);
//   bell.h(0);
//   bell.cx(0, 1);
//   bell.measure("Z", 0, 1);            // { outcome: 1, determined: false }
//
// The buffers that the engine works on are this module's own: numbers go in, numbers come out, and no pointer leaves it.
export * from "./engine/index.js";
