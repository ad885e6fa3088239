// The classes of a register that a history misses, by what the proved module says about it.

import { CLASSES } from "../lab/audit.js";

export const rankOf = name => CLASSES.indexOf(name); // -1 of none

// What a history misses of a class, in the module's words: a class has none of its own if a weaker one is missed at the same line, or, with
// one reader, if atomic is.
export const missOf = ({misses}, name) => misses.find(it => it.class === name)
  ?? misses.filter(it => rankOf(it.class) < rankOf(name)).at(-1) ?? misses.find(it => rankOf(it.class) > rankOf(name)) ?? null;

// The lines that contradict a read at fault: those that ended the earlier reads, and those that began their writes, or the one that
// ended the last write.
export const linesAgainst = ({reads, since}) =>
  [...new Set([since, ...reads.flatMap(it => [it.written, it.line])])].filter(line => line > 1);

// The verdict in words, with its mood.
export const classWords = ({class: name, words}) => ({words, mood: name === "atomic" ? "good" : name ? "" : "bad"});
