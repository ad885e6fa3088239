// The explorer: a construction of a register under every interleaving and every answer of an overlapped read, up to a bound on its
// operations. The search is breadth first over states, so the first history that is found for a class is a shortest one. It is tested,
// not proved: what it finds is given to the proved audit, and what it does not find is a bound.

import { CLASSES, begunAt, readBegins, readEnds, without, writeBegins, writeEnds } from "./audit.js";
import { Wrong, proceduresOf } from "./procedures.js";
import { Numbers, States } from "./states.js";

// The bounds of a search: `all` if it goes on once every class has its history, to count the histories; `numbers` and `steps` of all states
// keep it within 256 and 128 MB, whatever the size of a state.
export const BOUNDS = {
  writes: 2, reads: 2, states: 300000, milliseconds: 10000, all: false, numbers: (1 << 27) - (1 << 22), steps: (1 << 25) - (1 << 10),
};
const MOST_OPERATIONS = 1000; // of a side
const LOOKED = 256; // states between two looks at the clock

// The steps of a construction from a state: each {state, events}. An event is {side, does, value} for an operation, or {side, does,
// register, value} for an access, with the values themselves; an access of an atomic register is one event.
function stepsOf(procedures) {
  const {form, sides, registers, nodes, root, follow} = procedures;
  const withAt = (list, place, it) => list.map((old, i) => i === place ? it : old);
  const allAnswers = register => (1 << registers[register].plain.length) - 1;
  const ofOperation = (side, does, value) => ({side: sides[side], does, value});
  const ofAccess = (side, does, {register}, code) =>
    ({side: sides[side], does, register: registers[register].name, value: code < 0 ? undefined : registers[register].plain[code]});

  // The operation of a side has ended at this node.
  const ends = (state, side, id, events) => {
    const {value, memory} = nodes[id], {left} = state.sides[side];
    const audit = side ? readEnds(state.audit, side - 1, value, form.values) : writeEnds(state.audit);
    const end = side ? ofOperation(side, "got", value) : ofOperation(side, "wrote");
    return {
      state: {...state, sides: withAt(state.sides, side, {left: left - 1, node: -1, memory, answers: -1}), audit},
      events: [...events, end]
    };
  };

  // The access of a side has ended with this answer.
  const goesOn = (state, side, answer, events) => {
    const it = state.sides[side], id = follow(it.node, answer);
    if (nodes[id].isDone) return ends(state, side, id, events);
    return {state: {...state, sides: withAt(state.sides, side, {...it, node: id, answers: -1})}, events};
  };

  // The access that is due begins; one of an atomic register is made.
  const begins = (state, side, events) => {
    const it = state.sides[side], node = nodes[it.node], {register, code} = node, {kind} = registers[register];
    if (kind === "atomic") {
      if (code < 0) return goesOn(state, side, state.held[register], [...events, ofAccess(side, "gives", node, state.held[register])]);
      const after = {...state, held: withAt(state.held, register, code)};
      return goesOn(after, side, 0, [...events, ofAccess(side, "sets", node, code)]);
    }
    if (code < 0) {
      const {held, writing} = state, isOverlapped = writing[register] >= 0;
      const own = 1 << held[register],
            answers = !isOverlapped ? own
        : kind === "safe"           ? allAnswers(register)
                                    : own | 1 << writing[register];
      return {state: {...state, sides: withAt(state.sides, side, {...it, answers})}, events: [...events, ofAccess(side, "read", node, -1)]};
    }
    // Each read of it that is under way may now give something else.
    const sidesNow = state.sides.map((other, i) => {
      if (i === side) return {...it, answers: 0};
      const its = other.node >= 0 && other.answers > 0 ? nodes[other.node] : null;
      if (!its || its.register !== register || its.code >= 0) return other;
      return {...other, answers: kind === "safe" ? allAnswers(register) : other.answers | 1 << code};
    });
    return {
      state: {...state, writing: withAt(state.writing, register, code), sides: sidesNow},
      events: [...events, ofAccess(side, "write", node, code)]
    };
  };

  // The first step of an operation, of a write with this value.
  const starts = (state, side, value) => {
    const {left, memory} = state.sides[side], id = root(side, value, memory),
                 audit = side ? readBegins(state.audit, side - 1) : writeBegins(state.audit, value);
    const events = [side ? ofOperation(side, "read") : ofOperation(side, "write", value)];
    const begun = {...state, audit, sides: withAt(state.sides, side, {left, node: id, memory: 0, answers: -1})};
    return nodes[id].isDone ? ends(begun, side, id, events) : begins(begun, side, events);
  };

  return (state, side) => {
    const {left, node: id, answers} = state.sides[side];
    if (id < 0) {
      if (!left) return [];
      return side ? [starts(state, side, -1)] : Array.from({length: form.values}, (_, value) => starts(state, 0, value));
    }
    const node = nodes[id], {register, code} = node;
    if (answers < 0) return [begins(state, side, [])];
    if (code >= 0) {
      const after = {...state, held: withAt(state.held, register, code), writing: withAt(state.writing, register, -1)};
      return [goesOn(after, side, 0, [ofAccess(side, "wrote", node, code)])];
    }
    return registers[register].plain.flatMap(
      (_, answer) => answers >> answer & 1 ? [goesOn(state, side, answer, [ofAccess(side, "got", node, answer)])] : []);
  };
}

// An operation that does not end by itself, with nothing beside it, is reported at once.
function checkAlone({form, sides, registers, nodes, root, follow, firstMemory}) {
  for (const side of sides.keys()) for (let value = side ? -1 : 0; value < (side ? 0 : form.values); value++) {
    const held = registers.map(it => it.first);
    for (let id = root(side, value, firstMemory(side)); !nodes[id].isDone;) {
      const {register, code} = nodes[id];
      if (code >= 0) held[register] = code;
      id = follow(id, code < 0 ? held[register] : 0);
    }
  }
}

// The accesses of an operation of these sides that makes the most of them, as {does, register, value}; the last of a read has no value, as
// its answer does not matter. What a side does only after an answer that no history gives is in no tree.
function longestOf({registers, nodes, root}, isOf) {
  const due = nodes.filter(it => !it.isDone && isOf(it.of[0]));
  if (!due.length) return [];
  const {of: [side, value, memory, answers]} = due.reduce((best, it) => it.of[3].length > best.of[3].length ? it : best);
  let id = root(side, value, memory);
  return Array.from({length: answers.length + 1}, (_, place) => {
    const {register, code, next} = nodes[id], {name, plain, code: codeOf} = registers[register], isRead = code < 0;
    if (place < answers.length) id = next[isRead ? codeOf(answers[place]) : 0];
    return {does: isRead ? "read" : "write", register: name, value: isRead ? answers[place] : plain[code]};
  });
}

// How many paths there are from the first state to one without a step: `to` has each state's targets, `ends` where the next ones begin.
function countPaths(to, ends) {
  const counts = new Float64Array(ends.count).fill(-1), stack = [0];
  while (stack.length) {
    const id = stack.at(-1), from = id ? ends.all[id - 1] : 0, end = ends.all[id], {length} = stack;
    let sum = from === end ? 1 : 0;
    for (let i = from; i < end; i++) {
      const count = counts[to.all[i]];
      if (count < 0) stack.push(to.all[i]);
      else sum += count;
    }
    if (stack.length > length) continue;
    counts[id] = sum;
    stack.pop();
  }
  return counts[0];
}

// Explores a construction, up to a number of writes, and of reads of each reader. The result has the strongest class that no history missed
// (`best`, or null); for each class that was missed, a shortest history (`found`: how many `steps`, and its `events`); how many states
// there were, whether these are all (`isWhole`), and how many histories, or null if not all of them were explored. As far as it was
// explored, `longest` has, for a write and for a read, the accesses of one with the most of them, `accesses` how many these are, and
// `registers`, for each register, its name, its kind and how many values it takes. `report` is called with the number of states at times.
export function explored(construction, bounds = {}, report = () => {}) {
  const {writes, reads, milliseconds, all, ...most} = {...BOUNDS, ...bounds}, began = performance.now();
  for (const count of [writes, reads])
    if (!(Number.isInteger(count) && count >= 0 && count <= MOST_OPERATIONS)) throw new Wrong("a bound is a whole number");
  const procedures = proceduresOf(construction), {form, sides, registers, firstMemory} = procedures, stepsFrom = stepsOf(procedures);
  checkAlone(procedures);
  const first = {
    held: registers.map(it => it.first), writing: registers.map(() => -1), audit: begunAt(form.first, form.readers),
    sides: sides.map((_, side) => ({left: side ? reads : writes, node: -1, memory: firstMemory(side), answers: -1})),
  };
  // For each state, the one from which it came, and by which step; and the targets of its steps, with the place where the next begin.
  const kept = new States(registers.length, sides.length), parents = new Numbers(Int32Array), taken = new Numbers(Int16Array),
        to = new Numbers(Uint32Array), ends = new Numbers(Uint32Array);
  const found = CLASSES.map(() => null);
  let missed = 0; // the classes that have their history

  // The events on the way to a state, and by one more step.
  const historyTo = (id, last) => {
    const way = [];
    for (let at = id; parents.all[at] >= 0; at = parents.all[at]) way.unshift(taken.all[at]);
    let state = first;
    const events = [...way, last].flatMap(number => {
      const step = sides.flatMap((_, side) => stepsFrom(state, side))[number];
      ({state} = step);
      return step.events;
    });
    return {steps: way.length + 1, events};
  };
  const add = (state, parent, number) => {
    const before = kept.count, id = kept.add({...state, audit: without(state.audit, missed)});
    if (id === before) {
      parents.push(parent);
      taken.push(number);
    }
    return id;
  };

  add(first, -1, -1);
  let isWhole = true, at = 0;
  for (; at < kept.count && (all || found.some(it => it === null)); at++) {
    const isFull = kept.count > most.states || kept.numbers.count > most.numbers || to.count > most.steps;
    if (isFull || at % LOOKED === 0 && performance.now() - began > milliseconds) {
      isWhole = false;
      break;
    }
    if (at % LOOKED === 0) report(kept.count);
    const state = kept.at(at);
    sides.flatMap((_, side) => stepsFrom(state, side)).forEach((step, number) => {
      for (const [place] of CLASSES.entries()) {
        if (found[place] !== null || !(step.state.audit.missed >> place & 1)) continue;
        found[place] = historyTo(at, number);
        missed |= 1 << place;
      }
      to.push(add(step.state, at, number));
    });
    ends.push(to.count);
  }
  const isAll = isWhole && at === kept.count, strongest = found.findIndex(it => it !== null);
  const longest = {
    write: writes ? longestOf(procedures, side => side === 0) : [],
    read: reads ? longestOf(procedures, side => side > 0) : [],
  };
  return {
    best: strongest === 0 ? null : CLASSES[(strongest < 0 ? CLASSES.length : strongest) - 1],
    found: Object.fromEntries(CLASSES.map((name, place) => [name, found[place]])),
    states: kept.count, isWhole: isAll || found.every(it => it !== null), histories: isAll ? countPaths(to, ends) : null, form,
    longest, accesses: {write: longest.write.length, read: longest.read.length},
    registers: registers.map(({name, kind, plain}) => ({name, kind, values: plain.length})),
    milliseconds: performance.now() - began,
  };
}

// The recording of a history, as docs/FORMATS.md describes it.
export function recordingOf({first, values}, events) {
  const word = it =>
    Number.isInteger(it) && it >= 0 ? it : values; // what is not a number of the format becomes the least number that is not a value
  const lines = events.filter(it => it.register === undefined).map(({side, does, value}) =>
    does === "got" ? `${side} got ${word(value)}` : does === "write" ? `${side} write ${value}` : `${side} ${does}`);
  return [`register ${first} ${values}`, ...lines, ""].join("\n");
}
