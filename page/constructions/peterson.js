// A buffer, its copy, and a buffer again
// after: Peterson, Concurrent Reading While Writing (1983), for one reader
// 2 writes, 2 reads: atomic
({
  values: 2,
  registers: {
    buff1: {}, buff2: {}, copy: {}, wflag: {kind: "atomic"}, sw: {kind: "atomic"},
    reading: {kind: "atomic", writer: "R1"}, writing: {kind: "atomic"},
  },
  memory: {W: {sw: 0, writing: 0}, R: {reading: 0}},
  *write(value, my) {
    yield write("wflag", 1);
    yield write("buff1", value);
    yield write("sw", my.sw = 1 - my.sw);
    yield write("wflag", 0);
    const reading = yield read("reading");
    if (reading !== my.writing) {
      yield write("copy", value);
      yield write("writing", my.writing = reading);
    }
    yield write("buff2", value);
  },
  *read(my) {
    const other = 1 - (yield read("writing"));
    if (other !== my.reading) yield write("reading", my.reading = other);
    const flag1 = yield read("wflag"), sw1 = yield read("sw"), first = yield read("buff1");
    const flag2 = yield read("wflag"), sw2 = yield read("sw"), second = yield read("buff2");
    if ((yield read("writing")) === my.reading) return yield read("copy");
    return sw1 !== sw2 || flag1 || flag2 ? second : first;
  },
})
