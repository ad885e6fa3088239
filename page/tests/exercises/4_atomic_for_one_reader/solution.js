// met
({
  values: 2,
  registers: {t: {kind: "regular", first: [0, 0], domain: [[0, 0]]}},
  memory: {W: {n: 0}, R: {n: 0, value: 0}},
  *write(value, my) {
    my.n = my.n + 1;
    yield write("t", [my.n, value]);
  },
  *read(my) {
    const [n, value] = yield read("t");
    if (n > my.n) Object.assign(my, {n, value});
    return my.value;
  },
})
