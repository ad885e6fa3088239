// not met, regular: missed, in 5 steps
({
  values: 2,
  registers: {b: {kind: "safe"}},
  memory: {W: {held: 0}},
  *write(value, my) {
    if (value === my.held) return;
    yield write("b", value);
  },
  *read() {
    return yield read("b");
  },
})
