// met
({
  values: 3,
  registers: {b0: {kind: "regular", first: 1}, b1: {kind: "regular"}, b2: {kind: "regular"}},
  *write(value) {
    yield write(`b${value}`, 1);
    for (let i = value - 1; i >= 0; i--) yield write(`b${i}`, 0);
  },
  *read() {
    for (let i = 0; i < 3; i++) if ((yield read(`b${i}`)) === 1) return i;
  },
})
