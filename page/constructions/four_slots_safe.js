// Four slots, with safe control bits written only if they change
// after: Simpson, Four-Slot Fully Asynchronous Communication Mechanism (1990), over weaker bits
// 2 writes, 2 reads: regular; not atomic in 23 steps
({
  values: 2,
  registers: {
    reading: {kind: "safe", writer: "R1"}, latest: {kind: "safe"}, slot0: {kind: "safe"}, slot1: {kind: "safe"},
    d00: {}, d01: {}, d10: {}, d11: {},
  },
  memory: {W: {slot: [0, 0], latest: 0}, R: {reading: 0}},
  *write(value, my) {
    const pair = 1 - (yield read("reading")), index = 1 - my.slot[pair];
    yield write(`d${pair}${index}`, value);
    yield write(`slot${pair}`, my.slot[pair] = index);
    if (my.latest !== pair) yield write("latest", my.latest = pair);
  },
  *read(my) {
    const pair = yield read("latest");
    if (my.reading !== pair) yield write("reading", my.reading = pair);
    const index = yield read(`slot${pair}`);
    return yield read(`d${pair}${index}`);
  },
})
