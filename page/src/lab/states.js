// The states of a search: what the registers hold, how far each side is, and what the audit keeps. They are kept as numbers of 16 bits
// in one array that grows, with a table by which each is found again, so that a million of them have room. A state is {held, writing,
// sides, audit}: for each register, the code of what it holds, and of what is being written to it, or -1; for each side {left, node,
// memory, answers}: how many operations it still makes, the access that is under way or due, or -1, what it remembers, and if an access is
// under way the answers that it may have, a bit each, otherwise -1.

const HALF = 15, LOW = (1 << HALF) - 1; // bits of a number that is kept as two

// A growing list of numbers.
export class Numbers {
  constructor(kind) {
    this.all = new kind(1 << 10);
    this.count = 0;
  }

  push(number) {
    if (this.count === this.all.length) {
      const more = new this.all.constructor(2 * this.count);
      more.set(this.all);
      this.all = more;
    }
    this.all[this.count++] = number;
  }
}

// The numbers of a state at the end of the others, each one more than it is, so that none is below 0.
function put(numbers, {held, writing, sides, audit}) {
  const add = number => numbers.push(number + 1);
  held.forEach(add);
  writing.forEach(add);
  for (const {left, node, memory, answers} of sides) {
    add(left);
    add(node);
    add(memory);
    if (answers < 0) add(-1);
    else {
      add(answers & LOW);
      add(answers >> HALF);
    }
  }
  add(audit.values.length);
  audit.values.forEach(add);
  add(audit.isOpen);
  add(audit.floor);
  add(audit.missed);
  audit.own.forEach(add);
  for (const it of audit.reads) {
    if (it === null) add(-1);
    else {
      add(it.before);
      add(it.low);
      add(it.ownLow);
    }
  }
}

// States, each once, by their numbers from 0 on.
export class States {
  constructor(registers, sides) {
    this.form = {registers, sides};
    this.numbers = new Numbers(Uint16Array);
    this.ends = new Numbers(Uint32Array); // where the numbers of each state end
    this.table = new Int32Array(1 << 11).fill(-1);
  }

  get count() {
    return this.ends.count;
  }

  begin(id) {
    return id ? this.ends.all[id - 1] : 0;
  }

  // The place of a state in the table, or the free one for it, by its numbers from one place to another.
  placeOf(from, to) {
    const {numbers: {all}, ends, table} = this, mask = table.length - 1;
    let sum = 0x811c9dc5;
    for (let i = from; i < to; i++) sum = Math.imul(sum ^ all[i], 0x01000193);
    for (let place = (sum ^ sum >>> 15) & mask; ; place = place + 1 & mask) {
      const id = table[place];
      if (id < 0) return place;
      const begin = this.begin(id);
      let same = 0;
      if (ends.all[id] - begin === to - from) while (from + same < to && all[begin + same] === all[from + same]) same++;
      if (from + same === to) return place;
    }
  }

  // The number of a state, which is one more than before if it was not there.
  add(state) {
    const {numbers, ends} = this, from = numbers.count;
    put(numbers, state);
    const to = numbers.count, place = this.placeOf(from, to), id = this.table[place];
    if (id >= 0) {
      numbers.count = from;
      return id;
    }
    this.table[place] = this.count;
    ends.push(to);
    if (2 * this.count > this.table.length) {
      this.table = new Int32Array(2 * this.table.length).fill(-1);
      for (let other = 0; other < this.count; other++) this.table[this.placeOf(this.begin(other), ends.all[other])] = other;
    }
    return this.count - 1;
  }

  // The state with this number.
  at(id) {
    const {numbers: {all}, form: {registers, sides}} = this;
    let at = this.begin(id);
    const next = () => all[at++] - 1, list = (count, one = next) => Array.from({length: count}, one);
    const side = () => {
      const left = next(), node = next(), memory = next(), low = next();
      return {left, node, memory, answers: low < 0 ? -1 : low | next() << HALF};
    };
    const held = list(registers), writing = list(registers), its = list(sides, side), values = list(next());
    const [isOpen, floor, missed] = list(3), own = list(sides - 1);
    const reads = list(sides - 1, () => {
      const before = next();
      return before < 0 ? null : {before, low: next(), ownLow: next()};
    });
    return {held, writing, sides: its, audit: {values, isOpen, floor, missed, own, reads}};
  }
}
