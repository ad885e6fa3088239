// The words of the two verdicts on a trace, and of their reasons: lines and names for the module's numbers.

// The verdict of the audit of programs: {words, mood}. A trace whose first event is of no program shows bits alone, and no ring.
export function ringVerdict({isRun, kind, place}) {
  if (isRun) return {words: "ring: follows the programs", mood: "good"};
  if (place === 0) return {words: "", mood: "dim"};
  if (kind !== "not of the program") return {words: `ring: follows the programs up to line ${place + 1}`, mood: "dim"};
  return {words: `ring: line ${place + 2} is not of the program`, mood: "bad"};
}

// Why the bits do not permit the event at fault: the access of its side that is open, or that none is; or what its bit holds, and since
// which line.
export function whyOf({events, place, kind, why, since}) {
  if (kind !== "not permitted" && kind !== "out of turn") return why;
  const {side, bit} = events[place], last = events.slice(0, place).findLastIndex(it => it.side === side), before = events[last];
  if (kind === "not permitted")
    return `${bit} holds ${before.held} ${since ? `since line ${since + 1}` : "from the start"}, and no write overlaps the read of line ${
      last + 2}: it has to answer ${before.held}`;
  return before?.act === "read" || before?.act === "write"
    ? `${side}'s ${before.act} of ${before.bit} in line ${last + 2} is open: its end was to come`
    : `${side} has no access open that this could end`;
}

// What was due in place of an event that is not of its side's program, after some that are.
export function dueOf({events, programs: {isRun, kind, place, due}}) {
  if (isRun || kind !== "not of the program" || place === 0) return "";
  const {side} = events[place], groups = new Map();
  for (const {act, bit, value} of due)
    groups.set(`${act} ${bit}`, [...groups.get(`${act} ${bit}`) ?? [], ...value === undefined ? [] : [value]]);
  const words = [...groups].map(([name, values]) => [name, values.join(" or ")].filter(Boolean).join(" "));
  return words.length ? `in line ${place + 2} was due: ${side} ${words.join(", or ")}`
                      : `in line ${place + 2} nothing was due of ${side}: it has made its last call`;
}

// From which line on there are no calls of the ring, if a trace shows some and then leaves the programs.
export function uncalledOf({calls}, broken) {
  return calls.length && broken !== null ? `after line ${broken + 1} the accesses belong to no calls of the ring` : "";
}

// The place at which a picture shows that a trace leaves the programs: after some events that follow them, if the bits have no fault.
export const breakOf = ({place, programs}) =>
  programs && !programs.isRun && programs.kind === "not of the program" && programs.place > 0 && programs.place !== place ? programs.place
                                                                                                                          : null;
