// not met, regular: missed, in 3 steps
({
  values: 2,
  registers: {b: {kind: "safe"}},
  *write(value) {
    yield write("b", value);
    yield write("b", value);
  },
  *read() {
    return yield read("b");
  },
})
