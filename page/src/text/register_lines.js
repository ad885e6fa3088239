// The text of a recorded register: its lines, and the operations that they begin and end. The module says whether a text is a
// recording, and what its history is.

import { MOST_DIGITS, longestIn, startsOf } from "./recorded_lines.js";

// The operations of a recording, as far as each event is in its turn: {side, isWrite, value, answer, begin, end}, from the place of the
// line that begins one to the one that ends it, or to Infinity; a place is the number of a line, less 2. `strays` are the places of ends
// without a start, and of starts while one is under way.
export function operationsIn(text) {
  const lines = text.split("\n"), operations = [], open = new Map(), strays = [];
  for (let place = 0; place + 2 < lines.length; place++) {
    const [side, does, value] = lines[place + 1].split(" "), isWrite = side === "W", it = open.get(side);
    if (does === "write" || does === "read") {
      if (it) strays.push(place);
      const begun = {side, isWrite, value, answer: undefined, begin: place, end: Infinity};
      open.set(side, begun);
      operations.push(begun);
    } else if (it) {
      Object.assign(it, {end: place, answer: value});
      open.delete(side);
    } else strays.push(place);
  }
  return {operations, strays};
}

// The sides of a recording, W and those that read, in order.
export function sidesOf(operations) {
  const readers = [...new Set(operations.filter(it => !it.isWrite).map(it => it.side))];
  return ["W", ...readers.length ? readers.sort((a, b) => a.slice(1) - b.slice(1)) : ["R1"]];
}

// The lines of a recording as the editor needs them, with its operations.
export function registerLines(text) {
  const {operations, strays} = operationsIn(text);
  return {...startsOf(text), operations, strays, sides: sidesOf(operations), digits: longestIn(text, MOST_DIGITS)};
}

// The words of a line.
export const registerLine = (text, {starts}, line) => `line ${line}: ${text.slice(starts[line], starts[line + 1] - 1)}`;

// What the first line says about the register.
export function registerHead(text) {
  const [, first, values] = text.slice(0, text.indexOf("\n")).replace(/^cut /, "").split(" ");
  return values ? `a register of the values 0 to ${BigInt(values) - 1n}, ${first} at first` : `a register of any number, ${first} at first`;
}

// The report on a recording, as the command prints it: [name, value, what it counts].
export const registerRows = ({writes, reads, overlapped, by_several, could_invert}, isCut) => [
  ["writes", writes, "writes that have begun"], ["reads", reads, "reads that have ended"],
  ["overlapped", overlapped, "of these, reads that a write overlapped"], ["by several", by_several, "and those that more than one did"],
  ["could invert", could_invert, "reads that began while a write was under way whose value a read that had ended had returned"],
  ...isCut ? [["cut", "yes", "operations after the last line are missing"]] : []];
