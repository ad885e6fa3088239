// Four values in binary, of atomic bits
// after: Lamport, On Interprocess Communication, Part II (1986), construction 2
// 3 writes, 2 reads: safe; not regular in 3 steps
({
  values: 4,
  registers: {b0: {kind: "atomic"}, b1: {kind: "atomic"}},
  *write(value) {
    yield write("b0", value & 1);
    yield write("b1", value >> 1);
  },
  *read() {
    const low = yield read("b0"), high = yield read("b1");
    return low + 2 * high;
  },
})
