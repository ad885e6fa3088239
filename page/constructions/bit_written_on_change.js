// A bit, written only if it changes
// after: Lamport, On Interprocess Communication, Part II (1986), construction 3
// 4 writes, 4 reads: regular; not atomic in 5 steps
({
  values: 2,
  registers: {b: {kind: "safe"}},
  memory: {W: {held: 0}},
  *write(value, my) {
    if (value === my.held) return;
    my.held = value;
    yield write("b", value);
  },
  *read() {
    return yield read("b");
  },
})
