// A recorded register, by what the proved module says about it: its class, why it misses others, its picture. Its lines are
// numbered; the register's is the first.

import { history } from "../draw/history.js";
import { registerHead, registerLine, registerLines, registerRows } from "../text/register_lines.js";
import { classWords, linesAgainst } from "./misses.js";

const MOST_ASKED = 20000; // lines of a recording of whose beginnings the module is asked at each step
const NONE_TOLD = "this recording cannot tell a regular register from an atomic one";
const CUT = "cut: operations after the last line are missing";

// The miss that is chosen, or else that of the weakest class.
const chosenOf = (misses, name) => misses.find(it => it.class === name) ?? misses[0] ?? null;

const ringOf = ({isCut}) => isCut ? {words: CUT, mood: "dim"} : null;

export function registerView(module) {
  const faultOf = it => it.miss ? it.miss.line : it.line;
  return {
    read(text) {
      const it = module.register(text);
      return it.refused ? it : {...it, text, lines: registerLines(text)};
    },
    // With the miss of the class that the reader chose.
    chosen: (whole, {missed}) => whole.refused || whole.pending ? whole : {...whole, miss: chosenOf(whole.misses, missed)},
    most: whole => whole.lines.count - 1,
    // It opens at the line at fault.
    first: whole => (faultOf(whole) || whole.lines.count) - 1,
    // A beginning of a recording is a recording of its own, and its verdict is asked for; but for a long one that of the whole is shown.
    at(whole, shown) {
      const {text, lines} = whole, isAll = shown === lines.count - 1, line = faultOf(whole);
      const it = isAll || lines.count > MOST_ASKED ? whole : module.register(text.slice(0, lines.starts[shown + 2]));
      const miss = (whole.miss && line <= shown + 1 ? whole.miss : it.misses[0]) ?? null, {words, mood} = classWords(it);
      const isBlind = it.report?.could_invert === "0" && it.class === "atomic" && isAll;
      return {
        ...it, words: `register: ${words}`, mood: it.line ? "bad" : mood, miss, line: it.line || (miss?.line ?? 0),
        ring: ringOf(whole), why: miss ? `not ${miss.class}: ${miss.words}` : "", due: isBlind ? NONE_TOLD : "",
        step: shown ? registerLine(text, lines, shown + 1) : "",
      };
    },
    drawing({lines, text}, it, waves, shown) {
      const {miss} = it, fault = it.line ? it.line - 2 : null;
      return {
        draw: history, sides: lines.sides, whole: lines.count - 1, count: shown, operations: lines.operations, digits: lines.digits,
        head: registerHead(text), fault, flag: miss ? `line ${it.line}: not ${miss.class}` : `line ${it.line}: out of turn`,
        against: miss ? linesAgainst(miss).map(line => line - 2) : [], words: it.words, mood: it.mood, why: it.why, total: lines.count,
      };
    },
    place: (whole, shown) => `line ${shown + 1} / ${whole.lines.count}`,
    rows: ({report, isCut}) => report ? registerRows(report, isCut) : [],
    of: () => "",
    // A button for each class that is missed.
    misses: ({misses, miss}) => misses.map(it => ({name: it.class, words: `not ${it.class}: line ${it.line}`, isOn: it === miss})),
  };
}
