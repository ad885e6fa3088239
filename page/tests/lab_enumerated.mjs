// All histories of a construction with nothing merged, independent of src/lab: each is a list of events, the answers of an overlapped read are looked up in it
// according to the definitions, and the register's history is judged from its intervals. For small bounds.

const CLASSES = ["safe", "regular", "atomic by reader", "atomic"];
const isSame = (a, b) => JSON.stringify(a) === JSON.stringify(b);
const distinct = list => list.filter((it, i) => list.findIndex(other => isSame(other, it)) === i);

// The state of a side after its own events, found by replaying its procedures: {isAtWork, due, open, left, result}.
function stateAfter(construction, side, own, operations) {
  const my = structuredClone(construction.memory?.[side ? "R" : "W"] ?? {});
  let run = null, due = null, open = null, left = operations, result;
  const goOn = step => {
    if (step.done) [run, due, result] = [null, null, step.value];
    else due = step.value;
  };
  for (const it of own) {
    if (it.operation !== undefined) {
      run = side ? construction.read(my, side) : construction.write(it.operation, my);
      left--;
      goOn(run.next());
    } else if (it.begins) open = it;
    else {
      open = null;
      goOn(run.next(it.answer));
    }
  }
  return {isAtWork: run !== null, due, open, left, result};
}

// What a read that starts with this event may return at the end of the list: the values of the writes of its register that it overlaps, and the value before it.
function answersTo(construction, list, event) {
  const {kind = "safe", first = 0, domain = [0, 1]} = construction.registers[event.name], at = list.indexOf(event), overlapping = [];
  let held = first, open = null;
  list.forEach((it, place) => {
    if (it.name !== event.name || !it.writes) return;
    if (it.begins) {
      open = it;
      if (place > at) overlapping.push(it.value);
    } else {
      if (place < at) held = open.value;
      else overlapping.push(open.value);
      open = null;
    }
  });
  if (open && list.indexOf(open) < at) overlapping.push(open.value);
  if (!overlapping.length) return [held];
  return distinct(kind === "safe" ? domain : [held, ...overlapping]);
}

// The classes of a history of the register, from intervals: the start and end of each operation, and a choice of a write for each read.
function classesOf(history, {values, first = 0, readers = 1}) {
  const writes = [{begin: -1, end: -1, value: first}], reads = [], open = new Map();
  history.forEach(({side, isBegin, value}, place) => {
    if (isBegin) return open.set(side, {begin: place, value});
    const it = open.get(side);
    open.delete(side);
    if (side) reads.push({...it, end: place, value, side});
    else writes.push({...it, end: place});
  });
  if (open.has(0)) writes.push({...open.get(0), end: Infinity});
  const isBefore = (a, b) => a.end < b.begin, overlap = (a, b) => !isBefore(a, b) && !isBefore(b, a);
  const lastBefore = read => writes.findLastIndex(it => isBefore(it, read));
  const isValue = value => Number.isInteger(value) && value >= 0 && value < values;
  const isSafe = reads.every(read => isValue(read.value) && (writes.some(it => overlap(it, read)) || read.value === writes[lastBefore(read)].value));
  const mayBeOf = read => writes.flatMap((it, i) => it.value === read.value && (overlap(it, read) || i === lastBefore(read)) ? [i] : []);
  const hasChoice = (some, chosen = []) => {
    if (chosen.length === some.length) return true;
    const read = some[chosen.length];
    return mayBeOf(read).some(of => {
      const isInOrder = chosen.every((other, i) => !(isBefore(some[i], read) && other > of) && !(isBefore(read, some[i]) && other < of));
      return isInOrder && hasChoice(some, [...chosen, of]);
    });
  };
  const isEach = Array.from({length: readers}, (_, i) => reads.filter(it => it.side === i + 1)).every(some => hasChoice(some));
  return [isSafe, isSafe && reads.every(read => mayBeOf(read).length > 0), isSafe && isEach, isSafe && hasChoice(reads)];
}

// The number of histories, and for each class the steps of a shortest history that lacks it, or Infinity.
export function enumerated(construction, {writes, reads}) {
  const readers = construction.readers ?? 1, shortest = CLASSES.map(() => Infinity);
  let histories = 0;

  const go = (list, owns, history, steps) => {
    classesOf(history, construction).forEach((has, i) => shortest[i] = has ? shortest[i] : Math.min(shortest[i], steps));
    let isEnd = true;
    for (let side = 0; side <= readers; side++) {
      const operations = side ? reads : writes, it = stateAfter(construction, side, owns[side], operations);
      const make = (events, began = []) => {
        isEnd = false;
        const own = [...owns[side], ...events], after = stateAfter(construction, side, own, operations);
        const ended = after.isAtWork ? [] : [{side, isBegin: false, value: side ? after.result : undefined}];
        go([...list, ...events], owns.map((old, i) => i === side ? own : old), [...history, ...began, ...ended], steps + 1);
      };
      const begin = ({does, name, value}, before, began) => {
        const event = {begins: true, name, writes: does === "write", value};
        if (construction.registers[name].kind !== "atomic") return make([...before, event], began);
        const answer = event.writes ? null : answersTo(construction, [...list, event], event)[0];
        make([...before, event, {begins: false, name, writes: event.writes, value, answer}], began);
      };
      if (it.isAtWork && !it.open) begin(it.due, []);
      else if (it.isAtWork) {
        const {name, writes: isWrite, value} = it.open, answers = isWrite ? [null] : answersTo(construction, list, it.open);
        for (const answer of answers) make([{begins: false, name, writes: isWrite, value, answer}]);
      } else if (it.left) {
        for (let value = 0; value < (side ? 1 : construction.values); value++) {
          const operation = {operation: side ? -1 : value}, began = [{side, isBegin: true, value: side ? undefined : value}];
          const after = stateAfter(construction, side, [...owns[side], operation], operations);
          if (after.isAtWork) begin(after.due, [operation], began);
          else make([operation], began);
        }
      }
    }
    if (isEnd) histories++;
  };
  go([], Array.from({length: readers + 1}, () => []), [], 0);
  return {histories, shortest};
}
