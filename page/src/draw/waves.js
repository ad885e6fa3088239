// What the registers hold that a construction is built from: a row for each under the lanes, level for 0 and 1, else with its value between
// two lines, and hatched while it is being written.

import { LEFT, escape, round } from "./sheet.js";

const MOST_WAVES = 8, WAVE = 27, SWING = 18, HATCH = 8; // drawn at most; heights of one and of its step; between the lines of a hatch
const LETTER = 7.6;

// The registers whose waves are drawn, and out of how many: those that the history accesses, all, or none.
export function wavesOf(registers, accesses, choice) {
  if (choice === "none") return {drawn: [], of: 0};
  const used = new Set(accesses.map(it => it.register)), chosen = choice === "all" ? registers : registers.filter(it => used.has(it.name));
  return {drawn: choice === "all" ? chosen : chosen.slice(0, MOST_WAVES), of: chosen.length};
}

// What a register holds, up to the place `past`: stretches of {from, to} with the value `held`, or with the `write` that is under way.
export function waveOf({name, first}, accesses, past) {
  const wave = [];
  let from = -1, held = first;
  for (const it of accesses) {
    if (!it.isWrite || it.register !== name || it.begin >= past) continue;
    wave.push({from, to: it.begin, held});
    if (it.end > it.begin) wave.push({from: it.begin, to: Math.min(it.end, past), write: it});
    if (it.end > past) return wave;
    from = it.end;
    held = it.value;
  }
  wave.push({from, to: past, held});
  return wave;
}

const isBinary = ({name, first}, accesses) =>
  [first, ...accesses.filter(it => it.register === name).map(it => it.value)].every(it => it === undefined || it === "0" || it === "1");

// Lines from the lower left to the upper right, within a rectangle.
function hatch(a, b, y) {
  const lines = [];
  for (let at = a - SWING + HATCH; at < b; at += HATCH) {
    const low = Math.max(at, a), high = Math.min(at + SWING, b);
    if (low < high) lines.push(`M${round(low)} ${round(y + SWING - (low - at))}L${round(high)} ${round(y + SWING - (high - at))}`);
  }
  return lines.length ? `<path class="hatch" d="${lines.join("")}"/>` : "";
}

// Draws them, from this far `down` in a row on.
export function drawWaves({out, each, unit, top, rowOf, drawn}, {shown, accesses, count, down}) {
  shown.forEach((register, number) => {
    const y0 = down + number * WAVE, binary = isBinary(register, accesses), name = register.name;
    for (const row of drawn)
      if (row <= rowOf(Math.max(0, count - 1)))
        out.push(`<text class="wavename" x="${LEFT - 16}" y="${top(row) + y0 + 14}">${
          escape(name.length > 7 ? `${name.slice(0, 6)}…` : name)}</text>`);
    for (const {from, to, held, write} of waveOf(register, accesses, count - 0.5)) {
      for (const row of drawn) {
        const low = Math.max(from, row * each - 0.5), high = Math.min(to, (row + 1) * each - 0.5);
        if (low >= high) continue;
        const [a, b] = [low, high].map(place => round(LEFT + (place - row * each + 0.5) * unit)), y = top(row) + y0;
        const word = String(write ? `→ ${write.value}` : held), fits = word.length * LETTER <= b - a - 6;
        if (write) {
          out.push(`<rect class="underway" x="${a}" y="${y}" width="${round(b - a)}" height="${SWING}"/>`, hatch(a, b, y));
          if (fits) out.push(`<text class="becomes" x="${round((a + b) / 2)}" y="${y + 13.5}">${escape(word)}</text>`);
        } else {
          const level = y + (held === "1" ? 1 : SWING - 1);
          out.push(`<path class="level" d="${binary ? `M${a} ${level}H${b}` : `M${a} ${y + 1}H${b}M${a} ${y + SWING - 1}H${b}`}"/>`);
          if (fits) out.push(`<text class="held" x="${a + 5}" y="${y + 13.5}">${escape(word)}</text>`);
        }
      }
    }
  });
}
