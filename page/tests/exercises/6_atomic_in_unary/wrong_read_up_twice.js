// not met, atomic: missed, in 11 steps
({
  values: 3,
  registers: {b0: {kind: "atomic", first: 1}, b1: {kind: "atomic"}, b2: {kind: "atomic"}},
  *write(value) {
    yield write(`b${value}`, 1);
    for (let i = value - 1; i >= 0; i--) yield write(`b${i}`, 0);
  },
  *read() {
    let first = 0;
    while ((yield read(`b${first}`)) === 0) first++;
    let found = 0;
    while (found < first && (yield read(`b${found}`)) === 0) found++;
    return found;
  },
})
