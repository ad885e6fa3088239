// Three values in unary, read up and down again, of regular bits
// after: Vidyasankar, Converting Lamport's Regular Register to Atomic Register (1988), over weaker bits
// 3 writes, 2 reads: regular; not atomic in 11 steps
({
  values: 3,
  registers: {b0: {kind: "regular", first: 1}, b1: {kind: "regular"}, b2: {kind: "regular"}},
  *write(value) {
    yield write(`b${value}`, 1);
    for (let i = value - 1; i >= 0; i--) yield write(`b${i}`, 0);
  },
  *read() {
    let found = 0;
    while ((yield read(`b${found}`)) === 0) found++;
    for (let i = found - 1; i >= 0; i--) if ((yield read(`b${i}`)) === 1) found = i;
    return found;
  },
})
