"""Tests of playing by hand: what each side does next, the rules, the goals; and that no goal is reached against the correct ring."""
import json
import os
import random
import re
import time

from browser import EXAMPLES, example

WRONG = sorted(name.removesuffix(".json") for name in os.listdir(os.path.join(EXAMPLES, "wrong")) if name.endswith(".json"))
# For each wrong ring the goal that its example reaches.
GOALS = {
    "small_modulus": "take an item twice",
    "small_modulus__takes": "take what was never put",
    "count_before_cell": "take what was never put",
    "clears_first": "get Empty with an item inside",
    "no_second_scan": "get Closed with an item inside",
}
AT_RANDOM = 10_000  # plays with all rules kept, for each goal

FOUND = "return document.getElementById('found').textContent"
MOVES = "return ['P', 'C'].map(side => document.getElementById(`asked${side}`).hidden ? document.getElementById(`move${side}`).textContent : `${document.getElementById(`words${side}`).textContent} ?`)"
SCRIPT = "return JSON.parse(document.getElementById('text').value)"
WON = "return document.getElementById('won').textContent"

# The module's recording and verdict of each of these scripts, as the page computes them.
RECORDINGS = """
const [{openModule}, {viewsOf}, {recordingOf}] = await Promise.all(["core/module", "model/views", "model/play_recording"].map(name => import(new URL(`${name}.js`, location))));
const module = await openModule(await (await fetch("made/ring_page.wasm")).arrayBuffer()), {script} = viewsOf(module);
return args[0].map(text => {
  const whole = script.read(text);
  if (whole.refused) return [whole.refused, ""];
  return [recordingOf(whole.calls, whole.shape.capacity).text, script.at(whole, whole.letters).found?.words ?? ""];
});
"""


def without_numbers(words):
    return re.sub(r"(line|letter) \d+", "line N", words)


def test_wrong_rings(page, same, _):
    """Each script of examples/wrong is played by its ring; its calls, and the words of the audit, are those that the command prints."""
    texts = [json.dumps({**json.loads(example(f"wrong/{name}.json")), "wrong": name.split("__")[0].replace("_", "-")}) for name in WRONG]
    page.open("")
    for name, (recording, words) in zip(WRONG, page.browser.wait(RECORDINGS, texts)):
        same(f"{name}: its calls", recording, example(f"wrong/{name}.calls"))
        same(f"{name}: its verdict", without_numbers(words), without_numbers("calls: " + example(f"wrong/{name}.verdict").strip()))
    for name in WRONG:
        page.open(f"script={name}&goal={GOALS[name].replace(' ', '+')}")
        same(f"{name}: its goal is reached", page.browser.run(WON), "reached")
        same(f"{name}: the call at fault", page.count("#picture .call.fault"), 1)
        same(
            f"{name}: a flag has the cause",
            without_numbers(page.browser.run("return [...document.querySelectorAll('#picture .flagwords')].at(-1).textContent")),
            without_numbers(example(f"wrong/{name}.verdict").split(": ", 2)[2].strip()),
        )
        page.browser.run("const rule = document.getElementById('rule'); rule.value = ''; rule.dispatchEvent(new Event('change'))")
        same(f"{name}: by the ring itself", [page.browser.run(FOUND), page.browser.run(WON)], ["calls: lawful", "not reached"])


def test_hand(page, same, _):
    """A play by keys and buttons: the text follows, an overlapped read is answered, and the last letter can be undone."""
    browser = page.browser
    page.open("script=nothing")
    same("what comes next", browser.run(MOVES), ["P read r0", "C read s0"])
    browser.press(*"ppp")
    same("three letters", [browser.run(SCRIPT)["schedule"], browser.run(MOVES)], ["P3", ["P wrote c0.0", "C read s0"]])
    same("in the link", ["%22P3%22" in page.hash(), page.hash().endswith("&lesson=nothing")], [True, True])
    browser.press("u")
    same("one back", browser.run(SCRIPT)["schedule"], "P2")
    browser.press(*"pppppc")
    same("a read that a write overlaps", [browser.run(SCRIPT)["schedule"], browser.run(MOVES)], ["P7C", ["P wrote s0", "C got s0 ?"]])
    browser.press("c")
    same("asks for its answer", browser.run(SCRIPT)["schedule"], "P7C")
    browser.press("0")
    same("is answered 0", [browser.run(SCRIPT)[name] for name in ("schedule", "oracle")], ["P7C2", "0"])
    browser.press("u")
    same("the answer goes with its letter", [browser.run(SCRIPT)[name] for name in ("schedule", "oracle")], ["P7C", ""])
    browser.run("document.querySelector('[data-side=C][data-answer=\"1\"]').click()")
    same("is answered 1", [browser.run(SCRIPT)[name] for name in ("schedule", "oracle")], ["P7C2", "1"])
    browser.press("p")
    same("P is done", browser.run(MOVES)[0], "P is done")
    browser.press("p")
    same("and makes no event", browser.run(SCRIPT)["schedule"], "P7C2P")
    same(
        "the lesson stays",
        [browser.run("return document.getElementById('of').textContent"), browser.run("return document.getElementById('reset').hidden")],
        ["nothing", False],
    )
    browser.run("document.getElementById('shown').value = 4; document.getElementById('shown').dispatchEvent(new Event('input'))")
    browser.press("c")
    same("a letter in the middle: those after it are dropped", browser.run(SCRIPT)["schedule"], "P4C")
    browser.back()
    browser.until("Back brings them back", "return JSON.parse(document.getElementById('text').value).schedule === 'P7C2P'")
    page.click("reset")
    browser.until("Reset", "return document.getElementById('reset').hidden")
    same("the lesson's own text", browser.run(SCRIPT)["schedule"], "")
    page.click("moveP")
    page.click("moveC")
    same("by the buttons", browser.run(SCRIPT)["schedule"], "PC")
    page.click("anew")
    same("from the start", browser.run(SCRIPT)["schedule"], "")


def test_rules(page, same, folder):
    """A script that names a ring is played by that ring and never by the correct one."""
    page.open("script=nothing")
    script = json.loads(example("wrong/small_modulus.json"))
    page.write(json.dumps({**script, "wrong": "small-modulus"}))
    same("pasted with the name", "comes again" in page.browser.run(FOUND), True)
    page.write(json.dumps({**script, "wrong": "small modulus"}))
    same("with an unknown name", page.words().split(":")[:2], ["refused", " field wrong names no ring that is nearly right"])
    page.write(json.dumps({**script, "wrong": 1}))
    same("with no name", page.words(), "refused: field wrong has the wrong kind")
    page.write(json.dumps({**script, "width": 0, "wrong": "small-modulus"}))
    same("a fault of the script", page.words(), "refused: width must be from 1 to 64")


# Scripts played by the ring itself, and on request by the one that is nearly right: the number of calls and of items taken, what was found
# about the first plays, and how many of the second reached this goal.
PLAYS = """
const [{openModule}, {traceOf}, {callsOf}, {callsTold, recordingOf, tellingsOf}, {isReached}] =
  await Promise.all(["core/module", "core/words", "text/calls", "model/play_recording", "model/game"].map(name => import(new URL(`${name}.js`, location))));
const module = await openModule(await (await fetch("made/ring_page.wasm")).arrayBuffer()), wrong = [], [scripts, goal, isNear] = args;
let calls = 0, taken = 0, reached = 0;
for (const script of scripts) {
  const {refused, shape, events, report} = module.play(script, 1e6);
  if (refused) return refused;
  const all = callsOf(events, module.moments(traceOf(shape, events), events.length));
  const asked = all.map(it => it.kind === "put" ? {...it, offered: script.items.slice(it.past, it.past + script.batch)}
    : it.kind === "take" ? {...it, wanted: Math.min(script.take_batch, script.takes - it.past)} : it);
  const {words} = module.calls(recordingOf(asked, shape.capacity).text);
  calls += all.length;
  taken += report.taken.length;
  if (words !== "lawful") wrong.push([script, words]);
  if (!isNear) continue;
  const playNear = letters => module.playNear(script.wrong, script, letters);
  reached += isReached(goal, module.calls(recordingOf(callsTold(tellingsOf(playNear, playNear(1e6)), script), shape.capacity).text));
}
return {calls, taken, wrong, reached};
"""


def drawn(draw, runs):
    """A random schedule and oracle: any runs of letters, or the given runs, each a few letters longer or shorter."""
    if draw.random() < 0.5:
        near = [(side, max(0, int(count) + draw.choice((0, 0, 0, 0, draw.randint(-3, 3))))) for side, count in runs]
    else:
        near = [(side, draw.randint(1, draw.choice((3, 12, 20)))) for side in draw.choice(("PC", "CP")) * draw.randint(2, 5)]
    return {"schedule": "".join(f"{side}{count}" for side, count in near if count), "oracle": "".join(draw.choice("01") for _ in range(12))}


def test_goals(page, same, _):
    """No random play of the correct ring reaches a goal, and some plays of the ring without the rule do."""
    draw, began, calls, taken = random.Random(63), time.monotonic(), 0, 0
    page.open("")
    for name in WRONG:
        shape, reached = {"batch": 1, "take_batch": 1, **json.loads(example(f"wrong/{name}.json")), "wrong": name.split("__")[0].replace("_", "-")}, 0
        runs = re.findall(r"([PC])(\d*)", shape["schedule"])
        for part in range(AT_RANDOM // 1000):
            found = page.browser.wait(PLAYS, [{**shape, **drawn(draw, runs)} for _ in range(1000)], GOALS[name], part == 0)
            if not isinstance(found, dict):
                return same(f"{name}: random plays", found, "to be played")
            same(f"{name}: random plays by the ring", found["wrong"], [])
            calls, taken, reached = calls + found["calls"], taken + found["taken"], reached + found["reached"]
        print(f"{name}: {AT_RANDOM} random plays by the correct ring, none reaches the goal; 1000 by this ring, {reached} reach it")
        same(f"{name}: a random play reaches its goal", reached > 0, True)
    several = {"batch": 1, **json.loads(example("take_of_two.json")), "items": [1, 0, 1, 1, 0, 0], "takes": 6, "wrong": ""}
    for batch, modulus in (1, 5), (2, 5), (2, 7):
        plays = [{**several, "batch": batch, "modulus": modulus, **drawn(draw, [("P", 16), ("C", 13), ("P", 14), ("C", 20)])} for _ in range(1000)]
        found = page.browser.wait(PLAYS, plays, "", False)
        same(f"takes of several, batch {batch}, modulus {modulus}: random plays by the ring", isinstance(found, dict) and found["wrong"], [])
    print(f"{calls} calls, {taken} items taken, {time.monotonic() - began:.0f} s")
    return same("items were taken", taken > AT_RANDOM // 4, True)


# At each moment of each script the counts that a scan may return, according to the panel; and for each count, and for none, whether the audit of the bits permits a scan to return it there.
SCANNED = ["plain_path", "batch_of_three", "wrap_under_an_open_count_write", "takes_count_write_open", "five_items", "scan_spans_two_puts"]
SCANS = """
const [{openModule}, {traceOf}, {viewsOf}, {rowsInside}] = await Promise.all(["core/module", "core/words", "model/views", "model/items_in_play"].map(name => import(new URL(`${name}.js`, location))));
const module = await openModule(await (await fetch("made/ring_page.wasm")).arrayBuffer()), {script} = viewsOf(module), found = {wrong: [], several: 0, none: 0, tried: 0};
const reads = (side, family, count, top) => Array.from({length: count === null ? top : count + 1}, (_, i) => `${side} read ${family}${i}\n${side} got ${family}${i} ${i === count ? 1 : 0}\n`).join("");
for (const [name, text] of [...Object.entries(args[0]), ...Object.entries(args[1])]) {
  const whole = script.read(text);
  for (let shown = 0; shown <= whole.letters; shown++) {
    const it = script.at(whole, shown), rows = rowsInside({...it, roundAt: whole.roundAt}, []), top = whole.roundAt ?? it.shape.modulus;
    for (const [side, family] of [["C", "s"], ["P", "r"]]) {
      const scans = rows.find(row => row.name === family).scans, last = it.events.findLast(of => of.side === side);
      if (last?.act === "read" || last?.act === "write") continue; // a side has one access open
      if (scans.length > 1) found.several++;
      if (scans.includes(null)) found.none++;
      for (const count of [...Array(top).keys(), null]) {
        const isLawful = module.audit(traceOf(it.shape, it.events) + reads(side, family, count, top)).words === "lawful";
        found.tried++;
        if (isLawful !== scans.includes(count)) found.wrong.push([name, shown, family, count]);
      }
    }
  }
}
return found;
"""
INSIDE = """return [...document.querySelectorAll('#inside .row')].map(row => [...row.children]
  .map(it => it.textContent + (it.classList.contains('open') ? '~' : '') + (it.classList.contains('now') ? '*' : '')).join(' '))"""


def test_inside(page, same, _):
    """The values of the bits and the items inside, with what the last event changed and what is being written."""
    for shown, rows in [
        (0, ["queue –", "s 1 0 0", "r 1 0 0", "cell 0", "x 0"]),
        (3, ["queue –", "s 1 0 0", "r 1 0 0", "cell 0…~*", "x 0"]),
        (6, ["queue –", "s 1 1* 0", "r 1 0 0", "cell 1", "x 0"]),
        (7, ["queue –", "s 1→0~* 1 0", "r 1 0 0", "cell 1", "x 0"]),
        (9, ["queue 1", "s 0 1 0", "r 1 0 0", "cell 1", "x 0"]),
        (18, ["queue –", "s 0 1 0", "r 0* 1 0", "cell 1", "x 0"]),
    ]:
        page.open(f"script=plain_path&shown={shown}")
        same(f"inside after {shown} letters", page.browser.run(INSIDE), rows)
    for shown, scans in [(3, "0 for s, and 0 for r"), (7, "0 or 1 for s, and 0 for r"), (9, "1 for s, and 0 for r")]:
        page.open(f"script=plain_path&shown={shown}")
        same(
            f"what a scan returns after {shown} letters",
            page.browser.run("return document.querySelector('#inside .scans').textContent"),
            f"A scan that lies in this moment gives {scans}.",
        )
    found = page.browser.wait(
        SCANS,
        {name: example(f"{name}.json") for name in SCANNED},
        {name: json.dumps({**json.loads(example(f"wrong/{name}.json")), "wrong": name.replace("_", "-")}) for name in WRONG},
    )
    same("each count that a scan may return, and no other, is lawful", found if not isinstance(found, dict) else found["wrong"], [])
    print("scans:", {name: found[name] for name in ("tried", "several", "none")})
    same("scans of several counts, and of none", [found["several"] > 40, found["none"] > 0, found["tried"] > 1000], [True, True, True])
    page.open("script=small_modulus")
    same("inside of a wrong ring: no items are shown", page.browser.run(INSIDE), ["s 1→0~ 1", "r 1* 1", "cell 1", "x 0"])
    page.write(json.dumps({**json.loads(example("plain_path.json")), "capacity": 64, "modulus": 256}))
    same("of many bits and cells only those that are not 0", page.browser.run(INSIDE), ["queue –", "s s1: 1", "r r1: 1", "cells c0: 1", "x 0"])


WELCOME = "return document.getElementById('welcome').checkVisibility()"


def test_first_screen(page, same, _):
    """The first screen says what the page is, and offers ways in; a term in a story is explained when it gets the focus."""
    browser = page.browser
    page.open("")
    same("the first screen", browser.run(WELCOME), True)
    browser.press("left")
    same("a step leaves it", browser.run(WELCOME), False)
    for at, name in enumerate(("break_the_ring", "new_old_inversion", "")):
        page.open("")
        browser.run("document.querySelectorAll('#welcome a')[arguments[0]].click()", at)
        browser.until("a way in", "return !document.getElementById('welcome').checkVisibility()")
        browser.until(
            f"leads to {name or 'recorded calls'}",
            "return (document.getElementById('lesson').hidden ? '' : document.getElementById('of').textContent).startsWith(arguments[0])",
            name,
        )
    page.open("script=nothing")
    same("no first screen after a link", browser.run(WELCOME), False)
    means = "return document.getElementById('means').textContent"
    browser.run("document.querySelector('.term').focus()")
    same("a word", browser.run(means), "letter: of a schedule: P or C, the side whose event comes next")
    browser.run("document.activeElement.blur()")
    same("and nothing after it", browser.run(means), "")
    terms = browser.run("return [...document.querySelectorAll('#story .term')].map(it => it.textContent.toLowerCase())")
    same("each is explained once", len(terms), len(set(terms)))


TESTS = [test_wrong_rings, test_hand, test_rules, test_inside, test_first_screen, test_goals]
