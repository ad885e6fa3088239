"""Tests of scripts in the page, for page/test: reports, replies, refused texts, and that the drawing agrees with the proof. Each
takes the page, a `same` that compares and a folder."""
import json
import os

import pack
import test_game
from browser import EXAMPLES, counts, example
from test_traces import begun


def own_scripts():
    """The scripts that the correct ring plays."""
    of_the_page = {*test_game.WRONG, *pack.lessons_and_plays()[1]}
    return [name for name in pack.names("script") if name not in of_the_page]


def test_scripts(page, same, _):
    for name in own_scripts():
        page.open(f"script={name}")
        same(f"{name}: report", page.report(), example(name + ".report"))
        same(f"{name}: content", json.loads(page.text()), json.loads(example(name + ".json")))
        if os.path.exists(os.path.join(EXAMPLES, name + ".trace")):
            page.click("astrace")
            same(f"{name}: trace", page.text(), example(name + ".trace"))
            same(f"{name}: its verdict", page.title(), "lawful")

    # letter by letter: each letter of this script makes an event
    name = "count_write_open_then_seen_old"
    lines = example(name + ".trace").splitlines(keepends=True)
    page.open(f"script={name}&shown=0")
    taken = []
    for letters in range(len(lines)):
        if letters:
            page.browser.press("right")
        moment = f"&shown={letters}" if letters < len(lines) - 1 else ""
        same(f"letter {letters}", [page.title(), page.hash()], [f"played {letters} of {len(lines) - 1} letters", f"#script={name}{moment}"])
        same(f"accesses of letter {letters}", page.count("#picture [data-line]"), begun("".join(lines[1 : letters + 1])))
        taken.append(page.report().splitlines()[2])
    same("the item is taken by letter 17", taken, ["taken"] * 17 + ["taken 1"] * 5)
    moments = page.browser.run("return [...document.querySelectorAll('#moments button')].map(it => [...it.children].map(it => it.textContent).join(': '))")
    same("replies", moments, ["letter 5: P puts 1", "letter 17: C has taken 1", "letter 21: C finds it empty"])
    page.browser.run("document.querySelector('#moments button').click()")
    same("a reply that is clicked", page.title(), "played 5 of 21 letters")
    page.click("astrace")
    same("a trace of five letters", page.text(), "".join(lines[:6]))
    page.browser.run("document.querySelector('input[value=script]').click()")
    same("back to the script", [page.title(), page.hash()], ["played 5 of 21 letters", f"#script={name}&shown=5"])


def test_refused_scripts(page, same, _):
    whole = json.loads(example("plain_path.json"))
    room = "script has more than this page has room for: 10000 events, 1000 runs of letters, 10000 answers"
    above = "is not below 2^53: this page cannot represent such numbers exactly"

    def but(**fields):
        return json.dumps({**whole, **fields})

    def without(name):
        return json.dumps({key: it for key, it in whole.items() if key != name})

    cases = [
        ("hello", "script is not JSON"),
        ("", "script is not JSON"),
        (but()[:-1], "script is not JSON"),
        ("1e309", "script is not JSON"),
        (but().replace('"takes": 1', '"takes": -1e309'), "script is not JSON"),
        ("[]", "script is not an object"),
        ("null", "script is not an object"),
        ("1", "script is not an object"),
        (but(colour=1), "script has an unknown field"),
        ('{"__proto__":1}', "script has an unknown field"),
        ('{"<b>":1}', "script has an unknown field"),
        ("{}", "field capacity is missing"),
        (without("takes"), "field takes is missing"),
        (but(takes=-1), "field takes has the wrong kind"),
        (but(close=1), "field close has the wrong kind"),
        (but(items=[1, "1"]), "field items has the wrong kind"),
        (but(items=1), "field items has the wrong kind"),
        (but(schedule=1), "field schedule has the wrong kind"),
        (but(batch=None), "field batch has the wrong kind"),
        (but(width=1.0), "field width has the wrong kind"),
        (but().replace('"takes": 1', '"takes": 1e0'), "field takes has the wrong kind"),
        (but(items=[1, 2**53]), f"item 1 {above}"),
        (but(items=[2**64 - 1], width=64), f"item 0 {above}"),
        (but(items=[2**53 + 1], width=64), f"item 0 {above}"),
        (but(takes=2**53), f"field takes {above}"),
        (but(capacity=0), "capacity must be from 1 to 64"),
        (but(modulus=2), "modulus must be from capacity + batch + 1 to 256"),
        (but(width=65), "width must be from 1 to 64"),
        (but(batch=2), "batch must be from 1 to capacity"),
        (but(take_batch=2), "take batch must be from 1 to capacity"),
        (but(take_batch="1"), "field take_batch has the wrong kind"),
        (but(capacity=2, take_batch=2), "modulus must be from capacity + the larger batch + 1 to 256"),
        (but(items=[1] * 1001), "script has too many items"),
        (but(items=[1, 2]), "item 1 does not fit the width"),
        (but(schedule="P1X"), "schedule is wrong at byte 2"),
        (but(schedule="<b>"), "schedule is wrong at byte 0"),
        (but(schedule="P1000001"), "schedule is too long"),
        (but(schedule="P0"), "schedule is wrong at byte 1"),
        (but(oracle="012"), "oracle is wrong at byte 2"),
        (but(items=[1, 1], schedule="P20000"), room),
        (but(schedule="PC" * 501), room),
        (but(oracle="01" * 5001), room),
    ]
    page.open("script=plain_path")
    for text, words in cases:
        page.write(text)
        same(f"script {text[:90]!r}", page.words(), f"refused: {words}")
        same("no report of it", [page.count("#summary *"), page.count("#moments *"), page.count("#picture *")], [0, 0, 0])
    same("no markup came in", page.count("b, img, iframe"), 0)
    page.write(but(items=[2**53 - 1], width=53, schedule="P200C200"))
    same("the largest item", page.report().splitlines()[1:3], [f"put {2**53 - 1}", f"taken {2**53 - 1}"])
    page.write(but())
    same("mended", page.title(), "played 18 of 18 letters")


# ---- the drawing agrees with the proof -----------------------------------------------------------------------------------


TIE = r"""
const [{openModule}, {traceOf}, {accessesOf, picture, waveOf}, {readScript}, {lettersOf}, {callsOf, callsUntil, MOST_CALLED}, {effectsOfRun}] =
  await Promise.all(["core/module", "core/words", "draw/picture", "text/script", "model/letters", "text/calls", "model/orders"].map(name => import(new URL(`${name}.js`, location))));
const {audit, moments: momentsOf, order, play} = await openModule(await (await fetch("made/ring_page.wasm")).arrayBuffer());
// The calls of a history of the programs: each own event belongs to one call; calls begin with the right access; together they put and take what the report says.
const lookAtCalls = (name, text, {events, programs}, report) => {
  if (!programs.isRun || events.length > MOST_CALLED) return;
  const it = momentsOf(text, events.length), calls = callsOf(events, it), of = side => calls.filter(it => it.side === side);
  found.calls += calls.length;
  for (const side of ["P", "C"]) {
    const own = events.map((event, place) => [event.side, place]).filter(([by]) => by === side).map(([, place]) => place);
    check(`${name}: each event of ${side} is of one call`, own.every(place => of(side).filter(it => it.begin <= place && place <= it.end).length === 1));
    check(`${name}: calls of ${side} follow one another`, of(side).every((it, i) => i === 0 || of(side)[i - 1].end < it.begin && of(side)[i - 1].reply !== ""));
  }
  check(`${name}: calls begin`, calls.every(({kind, begin}) => `${events[begin].act} ${events[begin].bit}` === {put: "read r0", close: "write x", take: "read s0"}[kind]));
  check(`${name}: calls end`, calls.every(({end}) => end === Infinity || events[end].act === "got" || events[end].act === "wrote"));
  const items = reply => calls.filter(it => it.reply === reply).flatMap(it => it.items).join();
  const open = it.put.slice(items("stored") ? items("stored").split(",").length : 0);
  check(`${name}: items put`, [items("stored"), ...open].filter(it => it !== "").join() === it.put.join());
  check(`${name}: items taken`, items("item") === it.taken.join());
  check(`${name}: closed`, calls.some(it => it.side === "C" && it.reply === "closed") === programs.told);
  // each call that has ended takes effect within its interval, and the module accepts the order
  const effects = effectsOfRun(calls, it.shape ?? audit(text).shape, order), ended = calls.filter(it => it.reply);
  check(`${name}: an order of the operations`, ended.every(call => effects.some(it => it.call.begin === call.begin && it.side === call.side)));
  check(`${name}: effects lie within their calls`, effects.every(it => it.call.begin < it.at && it.at < it.call.end));
  check(`${name}: none if an item was taken that was not put`, effectsOfRun(calls.map(it => ({...it, items: it.side === "C" ? it.items.map(item => String(BigInt(item) + 1n)) : it.items})), audit(text).shape, order).length === 0 || !calls.some(it => it.side === "C" && it.items.length));
  // a brace is drawn to the event that ends the call according to the audit: after it a close or a scan may begin, an item is taken, or the take returned closed
  const drawing = new DOMParser().parseFromString(picture({...audit(text), fault: null, waves: "none", calls}), "image/svg+xml");
  const numbers = new Map([...drawing.querySelectorAll(".line")].map(it => [it.textContent, it.getAttribute("x")]));
  for (const {side, kind, begin, end} of calls.filter(({end}) => end < Infinity && numbers.has(String(end + 2)))) {
    const path = [...drawing.querySelectorAll(`[data-call="${begin + 2}"] path`)].at(-1).getAttribute("d"), [, right] = /H([0-9.]+)V[0-9.]+$/.exec(path) ?? [];
    check(`${name}: the brace of line ${begin + 2} ends at line ${end + 2}`, right === numbers.get(String(end + 2)));
    const isOver = place => side === "P" ? kind === "close" ? events[place].act === "wrote" : it.found[place + 1].mayClose
      : it.found[place + 1].mayScan || it.found[place + 1].taken > it.found[place].taken || it.found[place + 1].told;
    check(`${name}: the call of line ${begin + 2} is over in line ${end + 2}`, isOver(end));
    if (side === "P") check(`${name}: and not before`, !events.slice(begin, end).some((_, i) => isOver(begin + i)));
    found.braces++;
  }
  if (!report) return;
  check(`${name}: the report's items`, report.put.join() === it.put.join() && report.taken.join() === it.taken.join());
  for (const reply of ["full", "empty"]) check(`${name}: ${reply}`, calls.filter(it => it.reply === reply).length === report[reply]);
  // a prefix has the calls that have begun, and those that have ended, in it
  for (let count = 0; count <= events.length; count += 7) {
    const own = traceOf(it.shape ?? audit(text).shape, events.slice(0, count)), some = callsOf(events.slice(0, count), momentsOf(own, count));
    check(`${name}: the calls of ${count} events`, JSON.stringify(some.map(({side, kind, begin, reply, items}) => [side, kind, begin, reply, items]))
      === JSON.stringify(callsUntil(calls, count).map(({side, kind, begin, reply, items}) => [side, kind, begin, reply, items])));
  }
};
const found = {braces: 0, calls: 0, reads: 0, shaded: 0, held: 0, plays: 0, right: 0, wrong: []};
const check = (what, it) => it ? found.right++ : found.wrong.push(what);
const look = (name, text) => {
  const it = audit(text), {events, shape} = it, count = it.place ?? events.length, lines = text.split("\n");
  check(`${name} is read`, !it.refused && traceOf(shape, events) === text);
  const drawing = new DOMParser().parseFromString(picture({...it, fault: it.place, waves: "all"}), "image/svg+xml");
  const {accesses} = accessesOf(events), first = bit => events.find(it => it.bit === bit);
  const isShaded = it => drawing.querySelector(`[data-line="${it.begin + 2}"]`).classList.contains("free");
  for (const read of accesses.filter(it => !it.isWrite && it.ended && it.end < count)) {
    const turned = [...lines];
    turned[read.end + 1] = turned[read.end + 1].slice(0, -1) + (read.value ? "0" : "1");
    const other = audit(turned.join("\n"));
    const isRefused = other.place === read.end && other.kind === "not permitted";
    check(`${name} line ${read.end + 2}`, isRefused !== isShaded(read) && (isRefused || other.words === it.words));
    const clashes = events.slice(read.begin, read.end).some(it => it.clashes);
    check(`${name} line ${read.end + 2} clashes`, clashes === isShaded(read));
    found.reads++;
    found.shaded += isShaded(read);
    // at a read that no write overlaps the wave has the answer
    const stretch = waveOf(first(read.bit), events, accesses, count, count).find(({from, to, write}) => !write && from <= read.begin && read.end <= to);
    check(`${name} line ${read.end + 2} wave`, isShaded(read) ? !stretch : stretch?.held === read.value);
  }
  check(`${name} columns`, drawing.querySelectorAll(".clash").length === events.filter(it => it.clashes).length);
  // the wave of a bit passes through the bit's value just after each of its events
  for (const [place, event] of events.slice(0, count).entries()) {
    const wave = waveOf(first(event.bit), events, accesses, count, count);
    const here = wave.find(({from, to}) => from <= place && place < to);
    check(`${name} held in line ${place + 2}`, here && (here.write ? true : here.held === event.held));
    if (event.act === "wrote") check(`${name} wrote in line ${place + 2}`, here.from === place && here.held === event.held);
    found.held++;
  }
};
const [traces, scripts] = args;
for (const [name, text] of Object.entries(traces)) {
  look(name, text);
  lookAtCalls(name, text, audit(text), null);
}
const replies = it => [it.report.put.length, it.report.taken.join(), it.report.full, it.report.empty, it.report.told].join(" ");
for (const [name, text] of Object.entries(scripts)) {
  const {script} = readScript(text), {letters} = play(script, 0);
  let before = play(script, 0), moments = [];
  const numbers = lettersOf(script.schedule, play(script, letters).events);
  for (let k = 1; k <= letters; k++) {
    const it = play(script, k), own = traceOf(it.shape, it.events);
    check(`${name} ${k} is a play`, it.letters === letters && it.report.events === it.events.length && audit(own).words === "lawful");
    check(`${name} ${k} goes on`, it.events.length - before.events.length <= 1 && own.startsWith(traceOf(before.shape, before.events)));
    check(`${name} ${k} is the letter of its event`, numbers.filter(it => it <= k).length === it.events.length);
    if (replies(it) !== replies(before)) moments.push(k);
    before = it;
    found.plays++;
  }
  look(`${name}.json`, traceOf(before.shape, before.events));
  lookAtCalls(`${name}.json`, traceOf(before.shape, before.events), audit(traceOf(before.shape, before.events)), before.report);
  found[name] = moments;
}
return found;
"""


def test_tie(page, same, _):
    traces, scripts = pack.names("trace"), own_scripts()
    page.open("")
    texts = {name: example(name + ".trace") for name in traces}
    plays = {name: example(name + ".json") for name in scripts}
    found = page.browser.wait(TIE, texts, plays)
    if not isinstance(found, dict):
        return same("drawing and proof", found, "to be tried")
    for wrong in found["wrong"]:
        same("drawing and proof", wrong, "right")
    counts.add(found["right"], 0)
    same("shaded reads and others", 0 < found["shaded"] < found["reads"], True)
    same("braces", found["braces"] > 40, True)
    print(
        f"drawing and proof: {found['reads']} reads, {found['shaded']} of them shaded, {found['held']} held values, {found['plays']} plays, {found['calls']} calls, {found['braces']} braces"
    )
    for name in scripts:
        page.open(f"script={name}")
        letters = page.browser.run("return [...document.querySelectorAll('#moments button span:first-child')].map(it => Number(it.textContent.split(' ')[1]))")
        same(f"{name}: letters of its replies", sorted(set(letters)), found[name])


# ---- all of them ---------------------------------------------------------------------------------------------------------


TESTS = [test_scripts, test_refused_scripts, test_tie]
