// The text of a script, read by JSON.parse. The fields and the words of what is refused are those of docs/FORMATS.md, but for the field
// `wrong`, which the page alone has: the name of the wrong ring that plays it. The module checks a script's numbers, schedule and oracle.

import { MISSES } from "../core/words.js";

const isWhole = it => Number.isInteger(it) && it >= 0;
const isText = it => typeof it === "string";
const FIELDS = {
  capacity: isWhole,
  modulus: isWhole,
  width: isWhole,
  items: it => Array.isArray(it) && it.every(isWhole),
  takes: isWhole,
  close: it => typeof it === "boolean",
  schedule: isText,
  oracle: isText,
  batch: isWhole,
  take_batch: isWhole,
  wrong: isText
};
const MAY_LACK = {batch: 1, take_batch: 1, wrong: ""};

// A number with a sign, a fraction or an exponent is not a whole number. (Engines that do not give the reviver the
// number's text, Firefox before 135, take 1.0 for 1.)
// One that is too large for any number, such as 1e309, is not JSON to the reader of the command.
function numbered(_, it, read) {
  if (it === Infinity || it === -Infinity) throw new SyntaxError("a number is out of range");
  return typeof it === "number" && /\D/.test(read?.source ?? "") ? NaN : it;
}

// The script that a text is: {script} or {refused}.
export function readScript(text) {
  let script;
  try {
    JSON.parse(text); // (a text that is not JSON is found out in a tenth of the time)
    script = JSON.parse(text, numbered);
  } catch (error) {
    return {refused: error instanceof RangeError ? "script is nested deeper than any script" : "script is not JSON"};
  }
  if (script === null || typeof script !== "object" || Array.isArray(script)) return {refused: "script is not an object"};
  if (Object.keys(script).some(name => !Object.hasOwn(FIELDS, name))) return {refused: "script has an unknown field"};
  script = {...MAY_LACK, ...script};
  for (const name in FIELDS) if (!Object.hasOwn(script, name)) return {refused: `field ${name} is missing`};
  for (const name in FIELDS) if (!FIELDS[name](script[name])) return {refused: `field ${name} has the wrong kind`};
  // From 2^53 on a number of JavaScript may mean several whole numbers.
  const large = script.items.findIndex(it => !Number.isSafeInteger(it));
  if (large >= 0) return {refused: `item ${large} is not below 2^53: this page cannot represent such numbers exactly`};
  for (const name of ["capacity", "modulus", "width", "takes", "batch", "take_batch"])
    if (!Number.isSafeInteger(script[name]))
      return {refused: `field ${name} is not below 2^53: this page cannot represent such numbers exactly`};
  if (script.wrong && !MISSES.includes(script.wrong))
    return {refused: `field wrong names no ring that is nearly right: these are ${MISSES.join(", ")}`};
  return {script};
}

const withLines = (given, script) =>
  `{\n${Object.keys(given).map(name => `  ${JSON.stringify(name)}: ${JSON.stringify(script[name])}`).join(",\n")}\n}`;

// The text of a script, a field to a line; a text that is not an object stays as it is.
export function laidOut(text) {
  const {script, refused} = readScript(text);
  return refused ? text : withLines(JSON.parse(text), script);
}

// The text of a script with these fields in place of its own; an empty one is left out if it is optional.
export function withFields(text, fields) {
  const {script} = readScript(text), given = {...JSON.parse(text), ...fields};
  for (const name in MAY_LACK) if (given[name] === MAY_LACK[name]) delete given[name];
  return withLines(given, {...script, ...given});
}

// The first `count` letters of a schedule, and then `more`, as runs of one side each.
export function firstLetters(schedule, count, more = "") {
  const runs = [];
  const add = (side, times) => {
    if (times === 0) return;
    if (runs.at(-1)?.side === side) runs.at(-1).times += times;
    else runs.push({side, times});
  };
  for (const [, side, times] of schedule.matchAll(/([PC])(\d*)/g)) {
    const here = Math.min(count, times === "" ? 1 : Number(times));
    add(side, here);
    count -= here;
  }
  for (const side of more) add(side, 1);
  return runs.map(({side, times}) => times === 1 ? side : side + times).join("");
}
