// The calls of the proved module ring_page.wasm. A text or a script goes in as bytes; what the module says comes out as
// objects with names and words. Nothing is decided here.

import { REGISTER_NUMBERS, registerFinding } from "./register_words.js";
import { EVENTS, KINDS, MISSES, WHYS, WORDS, eventAt, programsOf, scriptFault, traceFault } from "./words.js";

const MARK = 9; // bytes of a mark
const PAGE = 65536; // bytes by which memory grows

const TOLD = 11 + 8 + 3 * 6; // numbers of an audit: of the trace, of its programs, of three events that were due
const CALLS_TOLD = 6 + 11; // numbers on recorded calls: the finding with its lines, how many bytes its words have and
                           // whether it is cut, the report
const CAUSE_WORDS = 256; // bytes that hold the words of any cause
const MOST_TAKEN = 65536; // items taken that the audit of recorded calls keeps
const MOST_OFFERED = 65536; // items inside that it has room for, before more is tried
const NO_ROOM = 3; // its word for a text that needs more
const BEGINNING = 3; // the first three of them begin a call
// How many spaces there are in a text, in one line at most, and how many bytes after its last line feed: recorded calls have no more
// numbers than that. (By an index, as there may be tens of millions of bytes; `for .. of` takes several times as long.)
function spacesIn(bytes) {
  const {length} = bytes;
  let all = 0, most = 0, here = 0;
  for (let i = 0; i < length; i++) {
    const byte = bytes[i];
    if (byte === 32) here++;
    else if (byte === 10) {
      all += here;
      if (here > most) most = here;
      here = 0;
    }
  }
  return [all + here, Math.max(most, here), length - 1 - bytes.lastIndexOf(10)];
}

// What a call of the module returns, or that it stopped.
export function orStopped(call) {
  try {
    return call();
  } catch (error) {
    if (!(error instanceof WebAssembly.RuntimeError || error instanceof RangeError)) throw error;
    return {refused: `the module stopped: ${error.message}`, line: 0};
  }
}

// Compiles the module. The result has `audit`, `moments`, `play`, `playNear`, `calls`, `order` and `register`.
export async function openModule(bytes) {
  const compiled = await WebAssembly.compile(bytes);
  let exports = (await WebAssembly.instantiate(compiled)).exports;
  let laid = null; // the recorded calls that lie in the memory

  // Engines of older drafts of 64-bit memory take a number of pages; today's take a BigInt.
  const grow = pages => {
    try {
      exports.memory.grow(BigInt(pages));
    } catch (error) {
      if (!(error instanceof TypeError)) throw error;
      exports.memory.grow(pages);
    }
  };

  // The addresses of zeroed pieces of these lengths, after the module's own data, or from this address on, each at a multiple of 16.
  const lay = (lengths, base = Number(exports.__heap_base.value)) => {
    laid = null;
    let past = base;
    const places = lengths.map(length => {
      const place = Math.ceil(past / 16) * 16;
      past = place + length;
      return place;
    });
    const more = past - exports.memory.buffer.byteLength;
    if (more > 0) grow(Math.ceil(more / PAGE));
    new Uint8Array(exports.memory.buffer, base, past - base).fill(0);
    return places;
  };

  const setBytes = (place, bytes) => new Uint8Array(exports.memory.buffer, place, bytes.length).set(bytes);
  const setNumbers = (place, numbers) => new BigUint64Array(exports.memory.buffer, place, numbers.length).set(numbers.map(BigInt));
  // Whole numbers of JavaScript, by their halves, as there may be a million.
  const setSafeNumbers = (place, numbers) => {
    const halves = new Uint32Array(exports.memory.buffer, place, 2 * numbers.length);
    for (let i = 0; i < numbers.length; i++) {
      halves[2 * i] = numbers[i] % 2 ** 32;
      halves[2 * i + 1] = numbers[i] / 2 ** 32;
    }
  };
  const getNumbers = (place, count) => [...new BigUint64Array(exports.memory.buffer, place, count)].map(Number);
  const getEvents = (place, count) => {
    const marks = new Uint8Array(exports.memory.buffer, place, count * MARK);
    return Array.from({length: count}, (_, i) => eventAt(marks, i * MARK));
  };

  // A call that stops midway leaves its instance unfit for another; the next call has a new one.
  const call = (name, ...numbers) => {
    try {
      exports[name](...numbers.map(BigInt));
    } catch (error) {
      exports = new WebAssembly.Instance(compiled).exports;
      laid = null;
      throw error;
    }
  };

  // The verdicts on this text: {refused, line}, or that of the audit of bits, {words, kind, why, place, since, shape, events}; `place` is
  // that of the event at fault, or null, and `since` the number of events after which the bit held what the answer had to be; and
  // `programs`.
  const audit = text => {
    const bytes = new TextEncoder().encode(text);
    const [told, marks, put, taken, at] = lay([TOLD * 8, EVENTS * MARK, EVENTS * 8, EVENTS * 8, bytes.length]);
    setBytes(at, bytes);
    call("page_audit", at, bytes.length, marks, EVENTS, put, EVENTS, taken, EVENTS, told);
    const [outcome, number, place, shapeFault, count, capacity, modulus, width, batch, take_batch, since, ...found] =
      getNumbers(told, TOLD);
    if (outcome === 2) {
      const line = number === 2 ? place : number === 1 ? 1 : 0;
      return {refused: traceFault({number, place, shapeFault}), line};
    }
    const shape = {capacity, modulus, width, batch, take_batch}, events = getEvents(marks, count), programs = programsOf(found);
    if (outcome === 0) return {words: "lawful", kind: "", why: "", place: null, shape, events, programs};
    const kind = KINDS[number];
    return {words: `fault: line ${place + 2}: ${kind}`, kind, why: WHYS[number] ?? "", place, since, shape, events, programs};
  };

  // What the audit of programs reports about the first events of a trace: of none, one, two and so on up to `most`; and the items put and
  // taken by the last of these, in decimal.
  const moments = (text, most) => {
    const bytes = new TextEncoder().encode(text), slots = most + 64;
    const [told, put, taken, at] = lay([TOLD * 8, slots * 8, slots * 8, bytes.length]);
    setBytes(at, bytes);
    const found = [];
    for (let past = bytes.indexOf(10) + 1; found.length <= most && past > 0; past = bytes.indexOf(10, past) + 1) {
      call("page_audit", at, past, told, 0, put, slots, taken, slots, told);
      found.push(programsOf(getNumbers(told, TOLD).slice(11)));
    }
    const last = found.at(-1), items = (place, count) => [...new BigUint64Array(exports.memory.buffer, place, count)].map(String);
    return {found, put: items(put, last.put), taken: items(taken, last.taken)};
  };

  // Lays out a script of which `letters` are played, and pieces of these lengths: the arguments of a play, and where the pieces are.
  const layScript = ({capacity, modulus, width, batch, take_batch, items, takes, close, ...texts}, letters, lengths) => {
    const schedule = new TextEncoder().encode(texts.schedule), oracle = new TextEncoder().encode(texts.oracle);
    const [asked, itemsAt, scheduleAt, oracleAt, ...places] = lay([8 * 8, items.length * 8, schedule.length, oracle.length, ...lengths]);
    setNumbers(asked, [capacity, modulus, width, batch, take_batch, takes, close ? 1 : 0, letters]);
    setSafeNumbers(itemsAt, items);
    setBytes(scheduleAt, schedule);
    setBytes(oracleAt, oracle);
    return [[asked, itemsAt, items.length, scheduleAt, schedule.length, oracleAt, oracle.length], places];
  };

  // The play of the first letters of a script: {refused} or {shape, events, report, letters}; `letters` is how many letters the schedule
  // has. The events are there if they were asked for.
  const play = (script, letters, isDrawn = true) => {
    const {capacity, modulus, width, batch, take_batch, items} = script, room = isDrawn ? EVENTS : 0;
    const [asked, [told, put, taken, marks]] = layScript(script, letters, [12 * 8, items.length * 8, items.length * 8, room * MARK]);
    call("page_play", ...asked, marks, room, put, items.length, taken, items.length, told);
    const [outcome, number, place, shapeFault, count, putCount, takenCount, isTold, full, empty, flicker, all] = getNumbers(told, 12);
    if (outcome === 2) return {refused: scriptFault({number, place, shapeFault})};
    const report = {events: count, put: getNumbers(put, putCount), taken: getNumbers(taken, takenCount), told: isTold === 1,
      full, empty, flicker};
    return {shape: {capacity, modulus, width, batch, take_batch}, events: getEvents(marks, Math.min(count, room)), report, letters: all};
  };

  // The same by the wrong ring of this name: {refused} or {shape, events, told, letters, roundAt} and how many events and reports of calls
  // there are. Its counts wrap at `roundAt`, and `told` has the start of each call, with its `kind`, and each end, with its `reply`, as
  // {side, kind, reply, number, items}: `number` is how many items a put offers at its start and has stored at its end, and how many a
  // take asks for at its start and has taken at its end; then `items` has them.
  const playNear = (name, script, letters, isDrawn = true) => {
    const {capacity, modulus, width, batch, take_batch} = script, room = isDrawn ? EVENTS : 0;
    const [asked, [played, tellings, items, marks]] = layScript(script, letters, [9 * 8, room * 2 * 8, room * 8, room * MARK]);
    call("page_play_near", MISSES.indexOf(name) + 1, ...asked, marks, room, tellings, room, items, room, played);
    const [outcome, number, place, shapeFault, count, toldCount, takenCount, all, roundAt] = getNumbers(played, 9);
    if (outcome === 2) return {refused: scriptFault({number, place, shapeFault})};
    const numbers = getNumbers(tellings, Math.min(toldCount, room) * 2), taken = getNumbers(items, Math.min(takenCount, room));
    let passed = 0;
    const told = Array.from({length: numbers.length / 2}, (_, i) => {
      const [side, word] = WORDS[numbers[2 * i]].split(" "), number = numbers[2 * i + 1];
      return numbers[2 * i] < BEGINNING ? {side, kind: word, reply: "", number, items: []}
        : {side, kind: "", reply: word, number, items: word === "item" ? taken.slice(passed, passed += number) : []};
    });
    return {
      shape: {capacity, modulus, width, batch, take_batch},
      events: getEvents(marks, Math.min(count, room)),
      told,
      toldCount,
      count,
      letters: all,
      roundAt
    };
  };

  // Lays out a text, and returns where it is and how many bytes it has; it makes no copy on the way if each character is one byte.
  const layText = text => {
    const [at] = lay([text.length]),
      {written, read} = new TextEncoder().encodeInto(text, new Uint8Array(exports.memory.buffer, at, text.length));
    if (read === text.length) return [at, written];
    const bytes = new TextEncoder().encode(text), [place] = lay([bytes.length]);
    setBytes(place, bytes);
    return [place, bytes.length];
  };

  // Lays out recorded calls, with room for this number of items inside, and returns where all of it lies; calls that lie there already are
  // not laid out again.
  const layCalls = (text, room) => {
    if (laid !== null && laid.text === text && laid.room === room) return laid;
    const [at, length] = layText(text), [all, most, last] = spacesIn(new Uint8Array(exports.memory.buffer, at, length)),
      offered = Math.min(all, room), taken = Math.min(all, MOST_TAKEN);
    const places = lay([CALLS_TOLD * 8, offered * 24, taken * 16, most * 8, last, CAUSE_WORDS], at + length);
    return laid = {text, room, isAll: offered === all, length, counts: [offered, taken, most, last], places: [...places, at]};
  };

  // What is found about recorded calls, in their first `past` characters: {refused, line}, or {words, cause, line, against, isCut, report},
  // where `line` is the one at fault, or 0, `cause` has the module's words for what contradicts it, if it is in turn, `against` is the line
  // that contradicts it, or 0, and it `isCut` if the first line says that later calls are missing.
  const calls = (text, past = text.length, room = MOST_OFFERED) => {
    const {isAll, length, counts: [offeredCount, takenCount, most, rest], places: [told, offered, taken, numbers, restAt, said, at]} =
      layCalls(text, room);
    if (past < text.length && length !== text.length) return calls(text.slice(0, past));
    call("page_calls", at, past < text.length ? past : length, offered, offeredCount, taken, takenCount, numbers, most, restAt, rest, said,
      CAUSE_WORDS, told);
    const [outcome, number, line, against, saidCount, cut, ...counts] = new BigUint64Array(exports.memory.buffer, told, CALLS_TOLD);
    if (outcome === 2n && Number(number) === NO_ROOM && !isAll) return calls(text, past, room * 16);
    if (outcome === 2n)
      return {
        refused: ["", `calls line ${line} is not a line of the format`, "calls are too many",
          "calls need more room than there is"][Number(number)],
        line: Number(line)
      };
    const isCut = cut === 1n, [made, stored, gone, full, empty, nothing, isTold, surely, perhaps, overlapped, open] = counts.map(String);
    if (outcome === 0n)
      return {
        words: "lawful",
        cause: "",
        line: 0,
        against: 0,
        isCut,
        report: {calls: made, stored, taken: gone, full, empty, nothing, told: isTold === "1", surely, perhaps, overlapped, open}
      };
    const cause = number === 2n ? new TextDecoder().decode(new Uint8Array(exports.memory.buffer, said, Number(saidCount))) : KINDS[2];
    return {words: `fault: line ${line}: ${cause}`, cause, line: Number(line), against: Number(against), isCut, report: null};
  };

  // How many of the first marks of a history of calls can come one after the other, at a queue that may say from `full` items on that it is
  // full and holds `most`.
  const order = ({marks, items, numbers}, {full, most}) => {
    const [holds, itemsAt, numbersAt, marksAt, count] = lay([3 * 8, items.length * 8, numbers.length * 8, marks.length * 24, 8]);
    setNumbers(holds, most === Infinity ? [0, 0, 0] : [1, full, most]);
    setNumbers(itemsAt, items);
    setNumbers(numbersAt, numbers);
    setNumbers(marksAt, marks.flat());
    call("page_order", holds, itemsAt, items.length, numbersAt, numbers.length, marksAt, marks.length, count);
    return getNumbers(count, 1)[0];
  };

  // What is found about a recorded register (register_words.js): with a slot for each of its writes, and one more.
  const register = text => {
    const bytes = new TextEncoder().encode(text), slots = (text.match(/^W write/gm)?.length ?? 0) + 1;
    const [told, window, places, at] = lay([REGISTER_NUMBERS * 8, slots * 8, slots * 8, bytes.length]);
    setBytes(at, bytes);
    call("page_register", at, bytes.length, window, slots, places, slots, told);
    return registerFinding(new BigUint64Array(exports.memory.buffer, told, REGISTER_NUMBERS));
  };

  return {audit, moments, order, play, playNear, calls, register};
}
