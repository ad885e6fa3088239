// Texts too long for a link; Back finds them again until the page is reloaded.

const MOST_KEPT = 64000000; // characters, beside the text that is shown
const kept = new Map(); // by their numbers: {mode, text}
let lastKept = 0;

// The number by which this text is found again, until the page is reloaded.
export function keep(mode, text) {
  for (const [number, it] of kept) if (it.mode === mode && it.text === text) return number;
  let room = MOST_KEPT;
  for (const [number, it] of [...kept].reverse()) {
    room -= it.text.length;
    if (room < 0) kept.delete(number);
  }
  kept.set(++lastKept, {mode, text});
  return lastKept;
}

export const keptAt = number => kept.get(Number(number));
