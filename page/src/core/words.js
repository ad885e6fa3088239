// What the numbers of the proved module mean: events, kinds of faults, what is refused. The words are those of docs/FORMATS.md.

export const EVENTS = 10000; // that there is room for: as many as the module reads or plays

export const SIDES = ["P", "C"];
const ACTS = ["read", "got", "write", "wrote"];
const FAMILIES = ["s", "r", "x", "c"];
export const KINDS = ["", "wrong side", "out of turn", "not permitted", "not of the program"];
export const WHYS = ["", "the bit is not of the shape, or this side may not do this to it"];
// The rings that are nearly right, by the names of docs/FORMATS.md, in the order of the module's numbers, which begin with 1.
export const MISSES = ["count-before-cell", "no-second-scan", "small-modulus", "clears-first", "clears-upwards"];
// The words of the lines of recorded calls, by the module's numbers.
export const WORDS = [
  "P put", "P close", "C take", "P stored", "P some", "P full", "P short", "P nothing", "P closed", "C item", "C some", "C empty",
  "C short", "C nothing", "C closed"
];

const SHAPE_FAULTS = ["", "capacity must be from 1 to 64", "modulus must be from capacity + batch + 1 to 256",
  "width must be from 1 to 64", "batch must be from 1 to capacity", "take batch must be from 1 to capacity",
  "modulus must be from capacity + the larger batch + 1 to 256"];

// What is wrong with a trace, and with a script, that the module refuses.
export function traceFault({number, place, shapeFault}) {
  return ["", SHAPE_FAULTS[shapeFault], `trace line ${place} is not a line of the format`, "trace has too many events",
    `trace has more than the ${EVENTS} events that this page has room for`][number];
}

export function scriptFault({number, place, shapeFault}) {
  return {6: SHAPE_FAULTS[shapeFault], 7: "script has too many items", 8: `item ${place} does not fit the width`,
    9: `schedule is wrong at byte ${place}`, 10: "schedule is too long", 11: `oracle is wrong at byte ${place}`,
    12: `script has more than this page has room for: ${EVENTS} events, 1000 runs of letters, 10000 answers`}[number];
}

// The name of a bit, made once.
const names = new Map();
function nameOf(family, index, digit, rank) {
  let name = names.get(rank);
  if (name === undefined) names.set(rank, name = family === "x" ? "x" : family === "c" ? `c${index}.${digit}` : family + index);
  return name;
}

// An event, with what the module reports of the moment just after it: what its bit holds, whether a write overlapped the read that it
// ends, and whether a read and a write of one bit are open. Its numbers are in the list from a place on.
export function eventAt(list, at) {
  const family = FAMILIES[list[at + 1]], index = list[at + 2], digit = list[at + 3], act = list[at + 4];
  const rank = (list[at + 1] * 256 + index) * 256 + digit;
  return {
    side: SIDES[list[at]],
    bit: nameOf(family, index, digit, rank),
    family,
    index,
    cell: family === "c" ? index : undefined,
    rank,
    act: ACTS[act],
    value: act === 1 || act === 2 ? list[at + 5] : undefined,
    held: list[at + 6],
    overlapped: list[at + 7] === 1,
    clashes: list[at + 8] === 1
  };
}

// What the audit of programs reports. For a history of the programs (`isRun`): how many items were put and taken, whether a take returned
// Closed, and whether a close, and a scan of the consumer, may begin next; otherwise the place where it leaves them, the kind of the fault,
// and which events of that side were due.
export function programsOf([outcome, number, place, put, taken, told, mayClose, mayScan, ...dues]) {
  const due = [0, 6, 12].map(at => dues.slice(at, at + 6)).filter(([isDue]) => isDue === 1)
    .map(([, row, index, digit, act, value]) => eventAt([0, row, index, digit, act, value, 0, 0, 0], 0));
  return {
    isRun: outcome === 0,
    kind: KINDS[number],
    place,
    put,
    taken,
    told: told === 1,
    mayClose: mayClose === 1,
    mayScan: mayScan === 1,
    due
  };
}

// The text of a trace, as docs/FORMATS.md describes it.
export function traceOf({capacity, modulus, width, batch, take_batch}, events) {
  const shape = ["shape", capacity, modulus, width, ...(take_batch > 1 ? [batch, take_batch] : batch > 1 ? [batch] : [])].join(" ");
  const lines = events.map(it => [it.side, it.act, it.bit, ...(it.value === undefined ? [] : [it.value])].join(" "));
  return [shape, ...lines, ""].join("\n");
}
