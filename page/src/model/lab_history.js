// A history that the explorer found: its steps, the operations and accesses in them, and the recordings that the module judges, of the
// register and of each one that it is built of.

const BEGINS = ["write", "read"], ENDS = {write: "wrote", read: "got"};

// Makes {operations, accesses, steps, words, recording, lineSteps} of events; `words` has those of each step, and `lineSteps` the step of
// each line of the recording. Null if the events are not a history.
export function historyOf({values, first}, events) {
  const operations = [], accesses = [], open = new Map(), under = new Map(), words = [], lines = [`register ${first} ${values}`],
    lineSteps = [-1, -1];
  let last = null;
  for (const event of events) {
    const {side, does, register, value} = event, operation = open.get(side), access = under.get(side), isAccess = register !== undefined;
    const isBegin = !isAccess && BEGINS.includes(does), isFirst = last?.side === side && last.register === undefined
      && BEGINS.includes(last.does);
    if (isBegin ? Boolean(operation) : !operation) return null;
    if (isBegin || isAccess && !isFirst) words.push([]);
    const step = words.length - 1;
    words[step].push([side, does, register, value ?? (does === "got" && !isAccess ? "no value" : undefined)]
      .filter(it => it !== undefined).join(" "));
    if (!isAccess) {
      if (isBegin) {
        const begun = {side, isWrite: does === "write", value, answer: undefined, begin: step, end: Infinity};
        open.set(side, begun);
        operations.push(begun);
      } else if (access || last.side !== side || does !== ENDS[operation.isWrite ? "write" : "read"]) return null;
      else {
        const isValue = value !== null && value !== undefined && value >= 0 && value < values;
        Object.assign(operation, {end: step, answer: isValue ? value : "no value"});
        open.delete(side);
      }
      // what is not a value becomes the least number that is not one
      const said = does === "got" && (value === null || value < 0) ? values : value;
      lines.push([side, does, said].filter(it => it !== undefined).join(" "));
      lineSteps.push(step);
    } else if (does === "sets" || does === "gives") {
      if (access) return null;
      accesses.push({side, register, isWrite: does === "sets", value, begin: step, end: step, isOverlapped: false});
    } else if (BEGINS.includes(does)) {
      if (access) return null;
      const begun = {side, register, isWrite: does === "write", value, begin: step, end: Infinity, isOverlapped: false};
      under.set(side, begun);
      accesses.push(begun);
    } else {
      if (!access || access.register !== register || does !== ENDS[access.isWrite ? "write" : "read"]) return null;
      Object.assign(access, {end: step}, does === "got" ? {value} : {});
      under.delete(side);
    }
    last = event;
  }
  const isOver = (it, other) => other.isWrite && other.register === it.register && other.side !== it.side && other.begin < it.end
    && other.end > it.begin && other.begin < other.end;
  for (const it of accesses) it.isOverlapped = !it.isWrite && it.begin < it.end && accesses.some(other => isOver(it, other));
  const recording = [...lines, ""].join("\n");
  return {operations, accesses, steps: words.length, words: words.map(it => it.join("; ")), recording, lineSteps};
}

// The accesses of one of the registers as a recording of it, its values as numbers in the order in which they come. Each side has a number
// as a reader, as the writer may read, too.
export function recordingOfRegister({name, first, domain}, sides, events) {
  const codes = new Map(), code = value => {
    if (!codes.has(value)) codes.set(value, codes.size);
    return codes.get(value);
  };
  [first, ...domain].forEach(code);
  const lines = events.filter(it => it.register === name).flatMap(({side, does, value}) => {
    const reader = `R${sides.indexOf(side) + 1}`;
    if (does === "sets") return [`W write ${code(value)}`, "W wrote"];
    if (does === "gives") return [`${reader} read`, `${reader} got ${code(value)}`];
    if (does === "write") return [`W write ${code(value)}`];
    return [does === "wrote" ? "W wrote" : does === "read" ? `${reader} read` : `${reader} got ${code(value)}`];
  });
  return [`register ${code(first)} ${codes.size}`, ...lines, ""].join("\n");
}
