// not met, atomic: missed, in 25 steps
({
  values: 2,
  registers: {v: {}, w: {}, r: {writer: "R1"}},
  memory: {W: {v: 0, w: 0}, R: {r: 0, last: 0}},
  *write(value, my) {
    if (value === my.v) return;
    yield write("v", my.v = value);
    if ((yield read("r")) === my.w) yield write("w", my.w = 1 - my.w);
  },
  *read(my) {
    if ((yield read("w")) === my.r) return my.last;
    const value = yield read("v");
    if ((yield read("w")) !== my.r) yield write("r", my.r = 1 - my.r);
    my.last = yield read("v");
    if ((yield read("w")) === my.r) return my.last;
    return value;
  },
})
