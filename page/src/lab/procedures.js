// The procedures of a construction as trees: what a side does next, by what its reads were answered so far. A construction is
//   {values: 3, first: 0, readers: 1,             values of the register, its first one, how many readers it has
//    registers: {b0: {kind: "safe", first: 1}},   those that it is built of: safe, regular or atomic; of `domain` [0, 1], written by "W"
//    memory: {W: {}, R: {}},                      what a side remembers from one operation to the next, as `my`
//    *write(value, my) { yield write("b0", 1); },
//    *read(my, reader) { return yield read("b0"); }}

export const read = name => ({does: "read", name});
export const write = (name, value) => ({does: "write", name, value});

export const KINDS_OF_REGISTERS = ["safe", "regular", "atomic"];
const MOST_REGISTERS = 64;
const MOST_VALUES = 30; // of one of the registers that it is built of
const MOST_ACCESSES = 64; // of one operation
const MOST_NODES = 60000; // of all trees

// What a construction does that it may not.
export class Wrong extends Error {}
const DEPENDS = "a procedure keeps something outside of `my`, or draws by chance: what it does may depend on its answers and on `my` alone";

const isObject = it => it !== null && typeof it === "object" && !Array.isArray(it);
const isCount = (it, least, most) => Number.isInteger(it) && it >= least && it <= most;

// The form of a construction, with what may be left out.
function formOf(it) {
  if (!isObject(it)) throw new Wrong("a construction is an object: ({values: 2, registers: {..}, *write(value, my) {..}, *read(my) {..}})");
  const {values, first = 0, readers = 1, registers, memory = {}} = it;
  if (!isCount(values, 2, 16)) throw new Wrong("values: how many values the register has, from 2 to 16");
  if (!isCount(first, 0, values - 1)) throw new Wrong("first: one of its values, from 0");
  if (!isCount(readers, 1, 4)) throw new Wrong("readers: from 1 to 4");
  if (!isObject(registers) || Object.keys(registers).length === 0) throw new Wrong("registers: those that it is built of, by their names");
  if (Object.keys(registers).length > MOST_REGISTERS) throw new Wrong(`registers: at most ${MOST_REGISTERS}`);
  for (const name of ["write", "read"]) if (typeof it[name] !== "function") throw new Wrong(`*${name}(..) {..} is missing`);
  return {values, first, readers, registers, memory, write: it.write, read: it.read};
}

// A register that it is built of, whose values have codes from 0 on.
function registerOf(name, it, sides) {
  if (!isObject(it)) throw new Wrong(`${name}: an object, as {kind: "safe", first: 0}`);
  const {kind = "safe", first = 0, domain = [0, 1], writer = "W"} = it;
  if (!KINDS_OF_REGISTERS.includes(kind)) throw new Wrong(`${name} is of no kind: safe, regular or atomic`);
  if (!sides.includes(writer)) throw new Wrong(`${name} has the writer ${writer}: it is one of ${sides.join(", ")}`);
  const plain = [], codes = new Map();
  const code = value => {
    const key = JSON.stringify(value) ?? "undefined";
    if (codes.has(key)) return codes.get(key);
    if (plain.length === MOST_VALUES) throw new Wrong(`${name} takes more than ${MOST_VALUES} values`);
    codes.set(key, plain.length);
    return plain.push(value) - 1;
  };
  if (!Array.isArray(domain)) throw new Wrong(`${name}: its domain is a list of values`);
  domain.forEach(code);
  return {name, kind, writer, plain, code, first: code(first)};
}

// The procedures of a construction, and its registers. A node of a tree is {isDone, value, memory}, at the end of an operation,
// or {register, code}, the access that is due: `code` is that of the value that is written, or -1 for a read.
export function proceduresOf(construction) {
  const form = formOf(construction), sides = ["W", ...Array.from({length: form.readers}, (_, i) => `R${i + 1}`)];
  const registers = Object.entries(form.registers).map(([name, it]) => registerOf(name, it, sides));
  const places = new Map(registers.map(({name}, place) => [name, place]));
  const nodes = [], roots = new Map(), memories = [], remembered = new Map();

  const remember = memory => {
    const text = JSON.stringify(memory);
    if (!remembered.has(text)) remembered.set(text, memories.push(text) - 1);
    return remembered.get(text);
  };

  // One operation up to the point that it reaches after these answers.
  const replay = (side, value, memory, answers) => {
    const my = JSON.parse(memories[memory]), run = side ? form.read(my, side) : form.write(value, my);
    if (typeof run?.next !== "function")
      throw new Wrong(`${side ? "read" : "write"} is no generator: *${side ? "read" : "write"}(..) {..}`);
    let step = run.next();
    for (const answer of answers) {
      if (step.done) throw new Wrong(DEPENDS);
      step = run.next(answer);
    }
    return {my, step};
  };

  const accessOf = (side, it) => {
    if (!isObject(it) || !places.has(it.name) || it.does !== "read" && it.does !== "write")
      throw new Wrong(`yield read(NAME) or yield write(NAME, VALUE), of ${[...places.keys()].join(", ")}: ${JSON.stringify(it)}`);
    const register = places.get(it.name), {writer, code} = registers[register];
    if (it.does === "write" && writer !== sides[side]) throw new Wrong(`${sides[side]} writes ${it.name}, whose writer is ${writer}`);
    return {register, code: it.does === "write" ? code(it.value) : -1};
  };

  // Each step is taken twice, since what a procedure does may depend on its answers and on `my` alone.
  const node = (side, value, memory, answers) => {
    const {my, step} = replay(side, value, memory, answers), again = replay(side, value, memory, answers);
    if (JSON.stringify([my, step]) !== JSON.stringify([again.my, again.step])) throw new Wrong(DEPENDS);
    if (nodes.length === MOST_NODES) throw new Wrong("the procedures have too many ways to go");
    if (step.done) return nodes.push({isDone: true, value: step.value, memory: remember(my)}) - 1;
    if (answers.length === MOST_ACCESSES) throw new Wrong(`an operation makes more than ${MOST_ACCESSES} accesses`);
    return nodes.push({isDone: false, ...accessOf(side, step.value), of: [side, value, memory, answers], next: []}) - 1;
  };

  const root = (side, value, memory) => {
    const key = `${side} ${value} ${memory}`;
    if (!roots.has(key)) roots.set(key, node(side, value, memory, []));
    return roots.get(key);
  };

  // The node after an access; `answer` is the code that a read was answered, or 0 after a write.
  const follow = (id, answer) => {
    const {register, code, of: [side, value, memory, answers], next} = nodes[id];
    return next[answer] ??= node(side, value, memory, [...answers, code < 0 ? registers[register].plain[answer] : null]);
  };

  return {form, sides, registers, nodes, root, follow, firstMemory: side => remember(form.memory[side ? "R" : "W"] ?? {})};
}
