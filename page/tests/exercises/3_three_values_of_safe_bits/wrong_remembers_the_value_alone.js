// not met, regular: missed, in 11 steps
({
  values: 3,
  registers: {b0: {kind: "safe", first: 1}, b1: {kind: "safe"}, b2: {kind: "safe"}},
  memory: {W: {held: 0}},
  *write(value, my) {
    if (value === my.held) return;
    my.held = value;
    yield write(`b${value}`, 1);
    for (let i = value - 1; i >= 0; i--) yield write(`b${i}`, 0);
  },
  *read() {
    for (let i = 0; i < 3; i++) if ((yield read(`b${i}`)) === 1) return i;
  },
})
