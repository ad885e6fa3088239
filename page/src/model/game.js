// Playing a script by hand: what each side does next, which rule is broken, and what is to be reached. The module says what a side does,
// what a read may answer, and what is found about the calls.

// What a player may be after, by the words with which the audit of the calls says that it is reached; and what is missing as long as it has
// not.
export const GOALS = [
  {
    name: "take an item twice",
    words: /comes again/,
    lacks: calls => tookSome(calls) ? "each item that was taken came once" : "no item was taken yet"
  },
  {
    name: "take what was never put",
    words: /was not inside/,
    lacks: calls => tookSome(calls) ? "each item that was taken was inside" : "no item was taken yet"
  },
  {name: "get Empty with an item inside", words: /^empty, but item/, lacks: calls => lacksEnd(calls, "empty", "Empty")},
  {name: "get Closed with an item inside", words: /^closed, but item/, lacks: calls => lacksEnd(calls, "closed", "Closed")},
];

const takesEnded = (calls, reply) => calls.filter(it => it.side === "C" && it.reply === reply);
const tookSome = calls => takesEnded(calls, "item").length > 0;
const lacksEnd = (calls, reply, words) =>
  takesEnded(calls, reply).length ? `each ${words} was right: no item had to be inside` : `no take returned ${words} yet`;

// The rules of the ring, by the names of the rings that break one.
export const RULES = {
  "count-before-cell": "write the item before the count",
  "no-second-scan": "scan a second time after the close bit",
  "small-modulus": "a modulus of capacity + the larger batch + 1",
  "clears-first": "set the new bit before the others are cleared",
  "clears-upwards": "clear the bits from the highest down",
};

// The rule without which no goal is reached: a scan may then give a count between the old one and the new one, whose items are stored.
export const HARMLESS = "clears-upwards";

// Whether what is found about the calls reaches this goal.
export const isReached = (goal, found) => Boolean(found?.cause && GOALS.find(it => it.name === goal)?.words.test(found.cause));

// What is missing of a goal that is not reached, by what is found about the calls so far.
export function missingOf(goal, found, calls, wrong) {
  if (wrong === "") return "the ring keeps all rules: leave one out";
  if (wrong === HARMLESS) return "no play without this rule reaches it: a scan may give a count between two others, whose items are stored";
  if (found?.cause) return `the calls are at fault in another way: ${found.cause}`;
  return GOALS.find(it => it.name === goal).lacks(calls);
}

// An event as a button shows it; a read that a write overlaps is shown without its answer.
export const eventWords = ({act, bit, value, overlapped}) =>
  [act, bit, ...(value === undefined || act === "got" && overlapped ? [] : [value])].join(" ");

export const isAsked = it => it?.act === "got" && it.overlapped;

// The side that an answer is for: the one that was asked for last, or the only one that ends an overlapped read.
export function answering(nexts, last) {
  const asked = ["P", "C"].filter(side => isAsked(nexts[side]));
  return asked.includes(last) ? last : asked.length === 1 ? asked[0] : null;
}
