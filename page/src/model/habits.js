// Hints beside a fault of recorded calls, if a habit explains it. Each is another way to write the recording, and is given only if the
// module, asked about the recording written that way, finds no fault or a later one.

import { capacityIn, isUnderWay, itemsOf, lineIn, wantedAt } from "../text/recorded_lines.js";

const MOST_TRIED = 24; // first lines that are tried

// The text with other first numbers: `queue 7`, cut or not.
const withHead = (text, numbers) => text.slice(0, text.indexOf("queue")) + ["queue", ...numbers].join(" ") + text.slice(text.indexOf("\n"));

// The text with other words in each line that has these words and of which `isMeant` holds.
function withWords(text, lines, old, words, isMeant) {
  const parts = [];
  let from = 0;
  for (let line = 2; line <= lines.count; line++) {
    const at = lines.starts[line];
    if (!text.startsWith(old, at) || !isMeant(line)) continue;
    parts.push(text.slice(from, at), words);
    from = at + old.length;
  }
  return parts.join("") + text.slice(from);
}

// What the words of a fault say that a queue holds: `full` if it reported full with no more than that inside, or `most`, as many as were
// inside.
function heldBy(cause) {
  const [, full] = /^full, but at most (\d+) inside/.exec(cause) ?? [],
    [, asked, short] = /^short for (\d+), but at most (\d+) inside/.exec(cause) ?? [];
  const [, stored, before] = /^only (\d+) stored, but before them at most (\d+) inside/.exec(cause) ?? [],
    [, most] = /^(?:stored|not taken), but at least (\d+) inside/.exec(cause) ?? [];
  if (full ?? short ?? before)
    return {
      full: full !== undefined ? BigInt(full)
        : short !== undefined  ? BigInt(short) + BigInt(asked) - 1n
                               : BigInt(before) + BigInt(stored)
    };
  return most ? {most: BigInt(most)} : null;
}

// A first line that fits better, from what the fault says, and again from what the next one says.
function headHints(ask, text, found) {
  const {full, most} = capacityIn(text),
    stated = full === Infinity ? "and its first line has no bound"
    : most === full                     ? `not the ${most} of its first line`
                             : `not the ${full} to ${most} of its first line`;
  const held = heldBy(found.cause);
  if (!held) return [];
  let count = held.full ?? held.most, one = ask(withHead(text, [count]));
  for (let tried = 0, next; tried < MOST_TRIED && (next = one?.found.line && heldBy(one.found.cause)) && next.most > count; tried++) {
    count = next.most;
    one = ask(withHead(text, [count]));
  }
  if (one && count > 0n) return [{words: `It held ${count}, ${stated}: try queue ${count}.`, label: `queue ${count}`, ...one}];
  if (most === Infinity) return [];
  let low = held.full ?? BigInt(full), high = held.most ?? BigInt(most);
  for (let tried = 0; tried < MOST_TRIED && low < high; tried++) {
    const it = ask(withHead(text, [low, high]), false), next = it?.found.line ? heldBy(it.found.cause) : null;
    if (it && !it.found.line)
      return [{
        words: `It may report full with ${low} inside, and holds ${high}: queue ${low} ${high} allows that.`,
        label: `queue ${low} ${high}`,
        ...it
      }];
    if (!next) return [];
    low = next.full !== undefined && next.full < low ? next.full : low;
    high = next.most !== undefined && next.most > high ? next.most : high;
  }
  return [];
}

// Ends whose words say more than the queue means.
function endHints(ask, text, lines, {cause, line}) {
  const put = it => itemsOf(text, lines, lines.mates[it]).length, wanted = it => wantedAt(text, lines, lines.mates[it]),
    words = lineIn(text, lines, line);
  const hint = (said, old, now, isMeant) => {
    const it = ask(withWords(text, lines, old, now, isMeant));
    return it ? [{words: said, label: now.trim(), ...it}] : [];
  };
  if (words === "P full" && /^full, but at most/.test(cause) && put(line) > 1)
    return hint(`This put of ${put(line)} is all or nothing: P short says that there was not room for all.`, "P full\n", "P short\n",
      it => lines.mates[it] && put(it) > 1);
  if (/^P stored \d/.test(words) && /^only \d+ stored, but before them/.test(cause))
    return hint("This put stops before the queue is full: P some says how many were stored, and not why not more.", "P stored ", "P some ",
      () => true);
  if (/^C item /.test(words) && /^no more, but item/.test(cause))
    return hint("This take stops before all that is inside: C some says what it took, and not why not more.", "C item ", "C some ",
      it => lines.mates[it] && itemsOf(text, lines, it).length < wanted(it));
  if (words === "C empty" && /^empty, but closed at/.test(cause))
    return hint("This take found the queue empty and closed: C closed says so.", "C empty\n", "C closed\n", it => it === line);
  return [];
}

// A call that begins within one of its side.
function turnHints(ask, text, lines, {cause, line}) {
  const [side, kind] = lineIn(text, lines, line).split(" "), open = isUnderWay(text, lines, side, line - 1);
  if (cause !== "out of turn" || !open || !/^(?:put|take|close)$/.test(kind)) return [];
  let end = line + 1;
  while (end <= lines.count && text[lines.starts[end]] !== side) end++;
  const without = text.slice(0, lines.starts[line]) + text.slice(lines.starts[line + 1], lines.starts[Math.min(end, lines.count + 1)])
    + text.slice(lines.starts[Math.min(end + 1, lines.count + 1)]);
  const it = ask(without), who = side === "P" ? "producers" : "consumers";
  return it ? [{
    words: `A ${kind} begins in line ${line} while the call of line ${open} has not ended: two ${who}? A recording has one.`,
    label: "Without that call",
    ...it
  }]
            : [];
}

// The hints on this fault: {words, label, text, found}; `found` is what the module finds in the `text` as the hint changes it.
export function habitsFor(module, text, lines, found) {
  const ask = (changed, isLater = true) => {
    const it = module.calls(changed);
    return it.refused || isLater && it.line && it.line < found.line + (found.cause === "out of turn" ? 0 : 1) ? null
                                                                                                              : {text: changed, found: it};
  };
  return [...endHints(ask, text, lines, found), ...headHints(ask, text, found), ...turnHints(ask, text, lines, found)];
}
