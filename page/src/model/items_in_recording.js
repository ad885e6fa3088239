// What is inside the queue at a line of recorded calls: how many items by what has ended, and which these are. It only counts: the
// module says that the lines up to there are a queue's.

import { capacityIn, isUnderWay, itemNumbered, itemsOf, wantedAt } from "../text/recorded_lines.js";

const MOST_LISTED = 24; // items in the panel

// How many items are inside at a line, whatever the calls under way have done, and how many at most.
export function countsAt(lines, line, most) {
  return {low: lines.low[line], high: Math.max(lines.low[line], Math.min(lines.high[line], Number(most)))};
}

export const rangeWords = ({low, high}) => low === high ? String(low) : `${low} to ${high}`;

// The items inside at a line, the next one first: {all, items}; `all` is how many there may be, and each item is {item, isPerhaps}. One
// that the take under way may have taken already, or that the put under way may not have put yet, is perhaps inside.
function itemsAt(text, lines, line) {
  const [put, take] = ["P", "C"].map(side => isUnderWay(text, lines, side, line)), first = lines.taken[line], past = lines.stored[line];
  const sure = first + (take ? wantedAt(text, lines, take) : 0), offered = put && !lines.closedAt ? itemsOf(text, lines, put) : [];
  const all = past - first + offered.length;
  const items = Array.from({length: Math.max(0, Math.min(all, MOST_LISTED))}, (_, i) => {
    const number = first + i;
    return {item: number < past ? itemNumbered(text, lines, number) : offered[number - past], isPerhaps: number < sure || number >= past};
  });
  return {all, items};
}

// The rows of the panel for them, as items_in_play.js has them, at a line before the one at fault.
export function rowsAtLine(text, lines, line) {
  const {most} = capacityIn(text), {all, items} = itemsAt(text, lines, line), more = all - items.length;
  const parts = items.map(({item, isPerhaps}) => ({words: item, isOpen: isPerhaps}));
  if (more > 0) parts.push({words: `and ${more} more`});
  if (lines.closedAt && lines.closedAt <= line) parts.push({words: "closed"});
  return [
    {
      name: "inside now",
      title: "how many items are inside at this line, whatever the calls under way have done, and how many at most",
      parts: [{words: rangeWords(countsAt(lines, line, most))}]
    },
    {
      name: "queue",
      title: "the items inside, the next one first; those that the calls under way may have taken, or not have put yet, are shaded",
      parts
    }
  ];
}
