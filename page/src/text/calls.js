// The calls of both sides, by what the module reports of each moment of a history.

export const MOST_CALLED = 600; // events of a history whose calls are shown

// The calls of the first events, as many as are of the programs: {side, kind, begin, end, reply, items, count}, from the place of its first
// event to that of its last, or to Infinity with no reply if it has not ended; `count` items are put, or taken, up to and with it. A
// call of the producer begins when it may close, and ends when it may close again. One of the consumer begins with a scan that is not the
// second scan of a take, after its read of the close bit as 1; it ends with the items that it takes, when it returns Closed, or when a
// scan may begin again.
export function callsOf(events, {found, put, taken}) {
  const calls = [], open = {P: null, C: null}, last = {P: null, C: null};
  const begin = (side, kind, place) =>
    calls.push(open[side] = {side, kind, begin: place, end: Infinity, reply: "", items: [], count: null});
  const end = (side, place, reply, items = []) => {
    Object.assign(open[side], {end: place, reply, items, count: side === "P" ? found[place + 1].put : found[place + 1].taken});
    open[side] = null;
  };
  for (let place = 0; place + 1 < found.length && found[place + 1].isRun; place++) {
    const event = events[place], {side} = event, before = found[place], now = found[place + 1];
    const seesClose = it => it !== null && it.act === "got" && it.family === "x" && it.value === 1;
    if (side === "P") {
      if (!open.P) {
        begin("P", event.family === "x" ? "close" : "put", place);
        open.P.past = before.put;
      }
      if (open.P.kind === "close" && event.act === "wrote") end("P", place, "closed");
      else if (open.P.kind === "put" && now.mayClose)
        end("P", place, now.put > open.P.past ? "stored" : "full", put.slice(open.P.past, now.put));
    } else {
      if (!open.C && before.mayScan && !seesClose(last.C)) {
        begin("C", "take", place);
        open.C.past = before.taken;
      }
      if (now.taken > before.taken) end("C", place, "item", taken.slice(before.taken, now.taken));
      else if (now.told && !before.told) end("C", place, "closed");
      else if (open.C && now.mayScan && !seesClose(event)) end("C", place, "empty");
    }
    last[side] = event;
    if (open.P?.kind === "put") open.P.begun = put.slice(open.P.past, now.put); // the items under a count write
  }
  return calls;
}

// The calls of the first `count` events of a history with these calls.
export function callsUntil(calls, count) {
  return calls.filter(it => it.begin < count).map(it => it.end < count ? it : {...it, end: Infinity, reply: "", items: [], count: null});
}

// The words of a call: short ones, and those with what it was.
export function callWords({kind, reply, items}) {
  if (!reply) return ["", kind];
  const short = reply === "stored" || reply === "item" ? items.join(" ") : reply;
  return [short, kind === "close" ? "close" : reply === "stored" ? `put ${short}` : `${kind}: ${short}`];
}

// The words of an operation, long and short.
export function operationWords({does, item}) {
  return item === null ? [does] : [`${item} ${does}`, does];
}

// The words of a part of a call, long and short: n counts the items put and k those taken; a scan gives the other side's count, modulo the
// modulus.
export function partWords({name, value}, {side, count}, modulus) {
  const [own, other] = side === "P" ? ["n", "k"] : ["k", "n"];
  const short = value === undefined ? name : `${name} ${value}`;
  if (name === "scan" && value !== undefined) return [`${other} mod ${modulus} = ${value}`, short];
  return name === "count" && count !== null ? [`${own} = ${count}`, short] : [short];
}

// The parts of a call: its scans with the bit that answered 1, its words and its count write, each {name, begin, end}, by its accesses.
export function partsOfCall(call, accesses) {
  const parts = [];
  for (const it of accesses) {
    if (it.side !== call.side || it.begin < call.begin || it.begin > call.end) continue;
    const name = it.family === "c" ? "word" : it.family === "x" ? "close bit" : it.isWrite ? "count" : "scan", last = parts.at(-1);
    const isSame =
      last && last.name === name && (name !== "scan" || last.value === undefined) && (name !== "word" || last.cell === it.cell);
    const part = isSame ? last : {name, begin: it.begin, cell: it.cell};
    if (!isSame) parts.push(part);
    part.end = it.ended ? it.end : Infinity;
    if (name === "scan" && it.ended && it.value === 1) part.value = it.index;
    if (name === "count" && it.value === 1) part.value ??= it.index;
    if (name === "close bit" && it.ended && !it.isWrite) part.value = it.value;
  }
  return parts;
}
