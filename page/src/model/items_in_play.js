// What is inside at a moment of a play: what the bits hold, by what the module says about each event, and the items, by the places at which
// the operations take effect.

const MOST_SHOWN = 12; // bits of a count, or cells, that are shown; of more those that hold a 1, or that are being written

// What each bit holds after these events, and what is being written to it: a bit without an event holds what it held at the start.
function bitsBehind(events) {
  const bits = new Map();
  for (const {bit, act, value, held} of events) {
    if (act === "write") bits.set(bit, {...bits.get(bit), becomes: value});
    else if (act === "wrote") bits.set(bit, {held});
  }
  return (bit, first) => ({held: first, ...bits.get(bit)});
}

// The items inside after this number of events, by the operations of an order; null if there is none.
export function itemsInside(order, count) {
  if (!order.length) return null;
  const items = [];
  for (const {does, item, at} of order) {
    if (at > count - 1) break; // (one that comes after the last event is not yet)
    if (does === "in") items.push(item);
    if (does === "out") items.shift();
  }
  return items;
}

// The counts that a scan of these bits may give while no event comes: it goes up to the first one that answers 1; a bit that is being
// written may answer 0 or 1, and each other one answers what it holds. `null` is a scan that finds no 1.
export function scansOf(bits) {
  const found = [];
  for (const [index, {held, isOpen}] of bits.entries()) {
    if (held || isOpen) found.push(index);
    if (held && !isOpen) return found;
  }
  return [...found, null];
}

// A row of the panel: {name, title, parts}, each part {words, isNow, isOpen}: whether the last event made it so, and whether it is being
// written; and for a count its `scans`.
export function rowsInside({shape, events, roundAt = shape.modulus}, order) {
  const bitAt = bitsBehind(events), last = events.at(-1), rows = [];
  const part = (bit, first, words = it => it) => {
    const {held, becomes} = bitAt(bit, first), isOpen = becomes !== undefined;
    return {
      held,
      words: isOpen ? `${words(held)}→${words(becomes)}` : String(words(held)),
      isOpen,
      isNow: last?.bit === bit && last.act !== "read" && last.act !== "got"
    };
  };
  const items = itemsInside(order, events.length);
  if (items)
    rows.push({
      name: "queue",
      title: "the items inside, the next one first, by the moments of the operations",
      parts: items.map(it => ({words: String(it)}))
    });
  for (const [family, title] of [["s", "the producer's count: the number of the lowest bit that is 1"], ["r", "the consumer's count"]]) {
    const parts = Array.from({length: roundAt}, (_, i) => ({...part(family + i, i === 0 ? 1 : 0), index: i}));
    const shown = roundAt <= MOST_SHOWN
      ? parts
      : parts.filter(it => it.held || it.isOpen).map(it => ({...it, words: `${family}${it.index}: ${it.words}`}));
    rows.push({name: family, title, parts: shown, scans: scansOf(parts)});
  }
  const cells = Array.from({length: shape.capacity}, (_, cell) => {
    const digits = Array.from({length: shape.width}, (_, i) => part(`c${cell}.${i}`, 0));
    const word = digits.reduceRight((sum, it) => sum * 2n + BigInt(it.held), 0n), isOpen = digits.some(it => it.isOpen);
    return {words: isOpen ? `${word}…` : String(word), isOpen, isNow: digits.some(it => it.isNow), index: cell, held: word > 0n};
  });
  const some = shape.capacity <= MOST_SHOWN
    ? cells
    : cells.filter(it => it.held || it.isOpen).map(it => ({...it, words: `c${it.index}: ${it.words}`}));
  rows.push({name: shape.capacity === 1 ? "cell" : "cells", title: "the words of the cells, each by its digits", parts: some});
  rows.push({name: "x", title: "the close bit", parts: [part("x", 0)]});
  return rows;
}
