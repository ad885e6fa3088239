// A copy for each of two readers, of atomic bits
// after: Lamport, On Interprocess Communication, Part II (1986), construction 1
// 3 writes, 3 reads: atomic by reader; not atomic in 3 steps
({
  values: 2,
  readers: 2,
  registers: {c1: {kind: "atomic"}, c2: {kind: "atomic"}},
  *write(value) {
    for (let reader = 1; reader <= 2; reader++) yield write(`c${reader}`, value);
  },
  *read(my, reader) {
    return yield read(`c${reader}`);
  },
})
