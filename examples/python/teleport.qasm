OPENQASM 3.0;
include "stdgates.inc";
qubit[3] q;
bit[2] c;
gate pair a, b { h a; cx a, b; }
sx q[0];                    // what is sent: -Y
pair q[1], q[2];
inv @ pair q[0], q[1];
c[0] = measure q[0];
c[1] = measure q[1];
if (c[1]) x q[2];
if (c[0]) { z q[2]; }
