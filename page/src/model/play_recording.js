// The calls of a play as recorded calls, for their verdict: what was put, taken and answered, in the order of the events.

// The starts and ends of the calls of a wrong ring, each with the place of its event: {place, side, kind, reply, number, items}. `playAt`
// has the number of events and of these (`told`) after the first letters of the play, and `all` has those of all; a letter makes at most
// one of each.
export function tellingsOf(playAt, all) {
  const tellings = [];
  const look = (low, before, high, after) => {
    if (before.toldCount === after.toldCount) return;
    if (high - low > 1) {
      const middle = Math.floor((low + high) / 2), between = playAt(middle);
      look(low, before, middle, between);
      look(middle, between, high, after);
    } else tellings.push({...all.told[before.toldCount], place: after.count - 1});
  };
  look(0, playAt(0), all.letters, all);
  return tellings;
}

// The calls of a script by these, as callsOf in calls.js has those of the right ring; `offered` are the items of a put.
export function callsTold(tellings, {items, batch}) {
  const calls = [], open = {P: null, C: null}, passed = {P: 0, C: 0};
  for (const {side, kind, reply, number, items: taken, place} of tellings) {
    if (!reply) {
      const asked = kind === "put" ? {offered: items.slice(number, number + batch)}
        : kind === "take"          ? {offered: [], wanted: number}
                                   : {offered: []};
      calls.push(open[side] = {side, kind, begin: place, end: Infinity, reply: "", items: [], count: null, ...asked});
      continue;
    }
    const its = reply === "stored" ? open[side].offered.slice(0, number) : taken;
    passed[side] += its.length;
    Object.assign(open[side], {end: place, reply, items: its.map(String), count: passed[side]});
  }
  return calls;
}

// The replies of calls for a list, each with the letter that made its event.
export function repliesOf(calls, numbers) {
  const words = {
    stored: it => `P puts ${it.items.join(" ")}`,
    full: () => "P finds it full",
    item: it => `C has taken ${it.items.join(" ")}`,
    empty: () => "C finds it empty",
    closed: it => it.side === "C" ? "C gets Closed" : "P has closed"
  };
  return calls.filter(it => it.reply).sort((a, b) => a.end - b.end).map(it => ({letter: numbers[it.end], words: words[it.reply](it)}));
}

// The recording of calls at a queue of this capacity as far as the first `count` events: its text, and for each of its lines the place of
// its event.
export function recordingOf(calls, capacity, count = Infinity) {
  const lines = calls.flatMap(({side, kind, begin, end, reply, items, offered = [], wanted = 1}) => {
    const few = reply === "stored" && items.length < offered.length ? [items.length] : [];
    return [
      {place: begin, words: [side, kind,
         ...(kind === "put" ? offered
             : wanted > 1   ? [wanted]
                            : [])]},
      {place: end, words: [side, reply, ...(reply === "item" ? items : few)]}
    ];
  }).filter(it => it.place < count).sort((a, b) => a.place - b.place);
  return {
    text: [`queue ${capacity}`, ...lines.map(it => it.words.join(" ")), ""].join("\n"),
    places: [-1, -1, ...lines.map(it => it.place)]
  };
}
