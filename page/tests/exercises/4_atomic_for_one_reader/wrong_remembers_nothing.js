// not met, atomic: missed, in 5 steps
({
  values: 2,
  registers: {t: {kind: "regular", first: [0, 0], domain: [[0, 0]]}},
  memory: {W: {n: 0}},
  *write(value, my) {
    my.n = my.n + 1;
    yield write("t", [my.n, value]);
  },
  *read() {
    const [n, value] = yield read("t");
    return value;
  },
})
