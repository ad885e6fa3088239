// A copy for each of three readers, of atomic bits
// after: Lamport, On Interprocess Communication, Part II (1986), construction 1
// 2 writes, 2 reads: atomic by reader; not atomic in 3 steps
({
  values: 2,
  readers: 3,
  registers: {c1: {kind: "atomic"}, c2: {kind: "atomic"}, c3: {kind: "atomic"}},
  *write(value) {
    for (let reader = 1; reader <= 3; reader++) yield write(`c${reader}`, value);
  },
  *read(my, reader) {
    return yield read(`c${reader}`);
  },
})
