// Numbered values; two readers that do not inform each other
// after: Israeli and Li, Bounded Time-Stamps (1987), with numbers that grow, without its last step
// 2 writes, 2 reads: atomic by reader; not atomic in 9 steps
({
  values: 2,
  readers: 2,
  registers: {
    t: {kind: "regular", first: [0, 0], domain: [[0, 0]]},
    m12: {kind: "regular", first: [0, 0], domain: [[0, 0]], writer: "R1"},
    m21: {kind: "regular", first: [0, 0], domain: [[0, 0]], writer: "R2"},
  },
  memory: {W: {n: 0}, R: {n: 0, value: 0}},
  *write(value, my) {
    my.n++;
    yield write("t", [my.n, value]);
  },
  *read(my, reader) {
    const other = 3 - reader;
    let best = [my.n, my.value];
    for (const name of ["t", `m${other}${reader}`]) {
      const seen = yield read(name);
      if (seen[0] > best[0]) best = seen;
    }
    if (best[0] > my.n) {
      [my.n, my.value] = best;
    }
    return my.value;
  },
})
