// The forms that pictures of histories share: a bar of a call or an operation, with words that fit it, and an access.

import { escape, round } from "./sheet.js";

export const LETTER = 7.3; // of the letters in a bar
export const SMALL = 6.7;
const TOOTH = 5;

// As many of the words as there is room for at this letter width, and how many more there are. No number is cut: if the last word has no
// room beside the first, it is drawn alone, or nothing is.
export function fitted(words, room, letter) {
  const most = Math.floor(room / letter), all = words.split(" ");
  for (let count = all.length; count > 0; count--) {
    const some = [...all.slice(0, count), ...count < all.length ? [`+${all.length - count}`] : []].join(" ");
    if (some.length <= most && (count > 1 || all.length === 1)) return some;
  }
  return all.length === 2 && all[1].length <= most ? all[1] : all[0].length <= most && !/^\d/.test(all[0]) ? all[0] : "";
}

// The path of a bar of this height, open at a side at which it goes on in another row.
export const barPath = (y, high, from, to, begins, ends) =>
  `<path d="M${to} ${y}H${from}${begins ? `V${y + high}` : `M${from} ${y + high}`}H${to}${ends ? `V${y}` : ""}"/>`;

// Its words: what it `asks`, and once it has ended what it `says`.
export function barWords({asks, says}, y, from, to, hasEnded) {
  const middle = round((from + to) / 2), room = to - from - 4,
    words = [`<text class="asks" x="${middle}" y="${y + 17}">${escape(fitted(asks, room, LETTER))}</text>`];
  return hasEnded ? [...words, `<text class="says" x="${middle}" y="${y + 34}">${escape(fitted(says, room, SMALL))}</text>`] : words;
}

// An access of this height, torn at a side at which it goes on in another row.
export function accessPath(y, high, from, to, begins, ends) {
  const [quarter, half, most, low] = [1, 2, 3, 4].map(n => y + n * high / 4);
  const right = ends ? `V${low}` : `L${round(to - TOOTH)} ${quarter}L${to} ${half}L${round(to - TOOTH)} ${most}L${to} ${low}`;
  const left = begins ? "" : `L${from + TOOTH} ${most}L${from} ${half}L${from + TOOTH} ${quarter}L${from} ${y}`;
  return `<path d="M${from} ${y}H${to}${right}H${from}${left}Z"/>`;
}
