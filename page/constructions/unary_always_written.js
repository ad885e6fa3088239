// Three values in unary, of safe bits that are always written
// after: Lamport, On Interprocess Communication, Part II (1986), construction 4, without its condition
// 2 writes, 2 reads: no class; not safe in 7 steps
({
  values: 3,
  registers: {b0: {kind: "safe", first: 1}, b1: {kind: "safe"}, b2: {kind: "safe"}},
  *write(value) {
    yield write(`b${value}`, 1);
    for (let i = value - 1; i >= 0; i--) yield write(`b${i}`, 0);
  },
  *read() {
    for (let i = 0; i < 3; i++) if ((yield read(`b${i}`)) === 1) return i;
  },
})
