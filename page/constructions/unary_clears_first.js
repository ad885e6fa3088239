// Three values in unary, cleared before the new bit is set
// after: Lamport, On Interprocess Communication, Part II (1986), construction 4, turned round
// 2 writes, 2 reads: no class; not safe in 7 steps
({
  values: 3,
  registers: {b0: {kind: "regular", first: 1}, b1: {kind: "regular"}, b2: {kind: "regular"}},
  *write(value) {
    for (let i = 0; i < value; i++) yield write(`b${i}`, 0);
    yield write(`b${value}`, 1);
  },
  *read() {
    for (let i = 0; i < 3; i++) if ((yield read(`b${i}`)) === 1) return i;
  },
})
