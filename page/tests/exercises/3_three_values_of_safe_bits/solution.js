// met
({
  values: 3,
  registers: {b0: {kind: "safe", first: 1}, b1: {kind: "safe"}, b2: {kind: "safe"}},
  memory: {W: {held: [1, 0, 0]}},
  *write(value, my) {
    const set = function* (i, bit) {
      if (my.held[i] !== bit) yield write(`b${i}`, my.held[i] = bit);
    };
    yield* set(value, 1);
    for (let i = value - 1; i >= 0; i--) yield* set(i, 0);
  },
  *read() {
    for (let i = 0; i < 3; i++) if ((yield read(`b${i}`)) === 1) return i;
  },
})
