// A play, letter by letter: the replies and the letters that brought them, and the letter of each event.

export const MOST_MOMENTS = 100; // replies that are listed
export const LISTED_LETTERS = 20000; // letters of a script whose replies are listed

// The replies of a play, and the letters that brought them: {letter, words}. What a report counts only grows from
// letter to letter, so nothing came between two letters whose reports are the same.
export function momentsOf(reportAt, {letters, report}) {
  const moments = [];
  const weight = it => it.put.length + it.taken.length + it.full + it.empty + (it.told ? 1 : 0);
  const look = (low, before, high, after) => {
    if (weight(before) === weight(after) || moments.length > MOST_MOMENTS) return;
    if (high - low > 1) {
      const middle = Math.floor((low + high) / 2), between = reportAt(middle);
      look(low, before, middle, between);
      look(middle, between, high, after);
      return;
    }
    const put = after.put.slice(before.put.length), taken = after.taken.slice(before.taken.length);
    if (put.length) moments.push({letter: high, words: `P puts ${put.join(" ")}`});
    if (after.full > before.full) moments.push({letter: high, words: "P finds it full"});
    if (taken.length) moments.push({letter: high, words: `C has taken ${taken.join(" ")}`});
    if (after.empty > before.empty) moments.push({letter: high, words: "C finds it empty"});
    if (after.told && !before.told) moments.push({letter: high, words: "C gets Closed"});
  };
  if (letters <= LISTED_LETTERS) look(0, reportAt(0), letters, report);
  return moments;
}

// The letters of one side in a schedule, by their places in all of it, counted from 1.
function* lettersBy(side, schedule) {
  let past = 0;
  for (const [, whose, count] of schedule.matchAll(/([PC])(\d*)/g)) {
    const times = count === "" ? 1 : Number(count);
    for (let i = 1; whose === side && i <= times; i++) yield past + i;
    past += times;
  }
}

// The letter that made each event. A letter makes an event of its side until that side is done, and none from then on
// (AreMoves in ring_player/specs/Plays.antt), so the first event of a side is that of its first letter, and so on.
export function lettersOf(schedule, events) {
  const letters = {P: lettersBy("P", schedule), C: lettersBy("C", schedule)};
  return events.map(it => letters[it.side].next().value);
}
