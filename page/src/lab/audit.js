// The one-pass audit of a register's history, as far as a search needs it: which classes were missed so far. It is an audit apart from the
// proved one, to which each history that is found is given. Its numbers are relative to the oldest write that a read under way may be of,
// so that histories that go on alike are alike.

// The classes, from the weakest on; a class is a bit in what was missed.
export const CLASSES = ["safe", "regular", "atomic by reader", "atomic"];
const [SAFE, REGULAR, BY_READER, ATOMIC] = [1, 2, 4, 8];
const FROM_SAFE = SAFE | REGULAR | BY_READER | ATOMIC, FROM_REGULAR = REGULAR | BY_READER | ATOMIC;

// What is kept: the `values` of the writes since the oldest one that matters, whether one `isOpen`, the `floor` below which no read may be
// of a write, and each reader's `own`; each reader's read under way, {before, low, ownLow}, or null; and the classes that were
// `missed`.
export const begunAt = (first, readers) =>
  ({values: [first], isOpen: 0, floor: 0, own: Array(readers).fill(0), reads: Array(readers).fill(null), missed: 0});

const ended = ({values, isOpen}) => values.length - 1 - isOpen;

// The numbers from the oldest write that matters on. For a class that was missed, nothing is kept.
function normal({values, isOpen, floor, own, reads, missed}) {
  const base = reads.reduce((least, it) => it ? Math.min(least, it.before) : least, values.length - 1 - isOpen);
  const lower = (number, isMissed) => isMissed ? 0 : Math.max(0, number - base);
  return {
    values: base ? values.slice(base) : values, isOpen, missed,
    floor: lower(floor, missed & ATOMIC),
    own: own.map(it => lower(it, missed & BY_READER)),
    reads: reads.map(it => it && {
      before: it.before - base,
      low: (missed & ATOMIC ? it.before : it.low) - base,
      ownLow: (missed & BY_READER ? it.before : it.ownLow) - base,
    }),
  };
}

const withAt = (list, place, it) => list.map((old, i) => i === place ? it : old);

export const writeBegins = (it, value) => ({...it, values: [...it.values, value], isOpen: 1});
export const writeEnds = it => normal({...it, isOpen: 0});

export function readBegins(it, reader) {
  const before = ended(it);
  return {...it, reads: withAt(it.reads, reader, {before, low: Math.max(before, it.floor), ownLow: Math.max(before, it.own[reader])})};
}

// A read ends with a value, one of the `count` that there are.
export function readEnds(it, reader, value, count) {
  const {before, low, ownLow} = it.reads[reader], {values} = it, last = values.length - 1;
  const least = from => values.indexOf(value, from), reads = withAt(it.reads, reader, null);
  const isValue = Number.isInteger(value) && value >= 0 && value < count;
  if (!isValue || before === last && values[last] !== value) return normal({...it, reads, missed: it.missed | FROM_SAFE});
  if (least(before) < 0) return normal({...it, reads, missed: it.missed | FROM_REGULAR});
  const of = least(low), ofOwn = least(ownLow);
  return normal({
    ...it, reads,
    missed: it.missed | (of < 0 ? ATOMIC : 0) | (ofOwn < 0 ? BY_READER : 0),
    floor: Math.max(it.floor, of),
    own: withAt(it.own, reader, Math.max(it.own[reader], ofOwn)),
  });
}

// The same with these classes missed, for which nothing more is to be found.
export const without = (it, missed) => (it.missed | missed) === it.missed ? it : normal({...it, missed: it.missed | missed});
