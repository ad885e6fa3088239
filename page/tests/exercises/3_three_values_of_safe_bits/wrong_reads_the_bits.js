// not met, one operation makes at most 3 accesses: a write makes 6, when it reads b2 as 0, writes 1 to b2, reads b1 as 1, writes 0 to b1, reads b0 as 1, writes 0 to b0
({
  values: 3,
  registers: {b0: {kind: "safe", first: 1}, b1: {kind: "safe"}, b2: {kind: "safe"}},
  *write(value) {
    if ((yield read(`b${value}`)) === 0) yield write(`b${value}`, 1);
    for (let i = value - 1; i >= 0; i--) if ((yield read(`b${i}`)) === 1) yield write(`b${i}`, 0);
  },
  *read() {
    for (let i = 0; i < 3; i++) if ((yield read(`b${i}`)) === 1) return i;
  },
})
