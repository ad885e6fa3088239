// not met, regular: missed, in 7 steps
({
  values: 3,
  registers: {b0: {kind: "regular", first: 1}, b1: {kind: "regular"}, b2: {kind: "regular"}},
  *write(value) {
    for (let i = 0; i < value; i++) yield write(`b${i}`, 0);
    yield write(`b${value}`, 1);
  },
  *read() {
    for (let i = 0; i < 3; i++) if ((yield read(`b${i}`)) === 1) return i;
  },
})
