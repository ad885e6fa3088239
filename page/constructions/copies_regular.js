// A copy for each of two readers, of regular bits
// after: Lamport, On Interprocess Communication, Part II (1986), construction 1
// 2 writes, 2 reads: regular; not atomic by reader in 5 steps
({
  values: 2,
  readers: 2,
  registers: {c1: {kind: "regular"}, c2: {kind: "regular"}},
  *write(value) {
    for (let reader = 1; reader <= 2; reader++) yield write(`c${reader}`, value);
  },
  *read(my, reader) {
    return yield read(`c${reader}`);
  },
})
