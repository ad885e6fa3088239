// A copy for each of two readers, of safe bits
// after: Lamport, On Interprocess Communication, Part II (1986), construction 1
// 2 writes, 2 reads: safe; not regular in 3 steps
({
  values: 2,
  readers: 2,
  registers: {c1: {kind: "safe"}, c2: {kind: "safe"}},
  *write(value) {
    for (let reader = 1; reader <= 2; reader++) yield write(`c${reader}`, value);
  },
  *read(my, reader) {
    return yield read(`c${reader}`);
  },
})
