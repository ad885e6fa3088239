// not met, atomic: missed, in 5 steps
({
  values: 2,
  registers: {t: {kind: "regular", first: [0, 0], domain: [[0, 0]]}},
  memory: {W: {n: 0}, R: {n: 0, value: 0}},
  *write(value, my) {
    my.n = (my.n + 1) % 4;
    yield write("t", [my.n, value]);
  },
  *read(my) {
    const [n, value] = yield read("t");
    if ((n - my.n + 4) % 4 < 2) Object.assign(my, {n, value});
    return my.value;
  },
})
