// not met, regular: missed, in 13 steps
({
  values: 3,
  registers: {b0: {kind: "regular", first: 1}, b1: {kind: "regular"}, b2: {kind: "regular"}},
  *write(value) {
    yield write(`b${value}`, 1);
    for (let i = 0; i < value; i++) yield write(`b${i}`, 0);
  },
  *read() {
    for (let i = 0; i < 3; i++) if ((yield read(`b${i}`)) === 1) return i;
  },
})
