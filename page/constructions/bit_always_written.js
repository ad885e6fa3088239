// A bit, always written
// after: Lamport, On Interprocess Communication, Part II (1986), construction 3, without its condition
// 3 writes, 3 reads: safe; not regular in 3 steps
({
  values: 2,
  registers: {b: {kind: "safe"}},
  *write(value) {
    yield write("b", value);
  },
  *read() {
    return yield read("b");
  },
})
