"""Tests of the lab in the page, and of recorded registers, for page/test: the page's explorer in its worker, wrong or malicious texts, links, pictures.
Each takes the page, a `same` that compares and a folder."""
import glob
import json
import os
import re
import time
import urllib.parse

import pack
from browser import EXAMPLES, PAGE, text_of
from test_calls import give
from test_home import PHONE, TOO_WIDE
from test_use import resize, seen, words

CLASSES = ["safe", "regular", "atomic by reader", "atomic"]
HEAD = re.compile(r"^// (\d+) writes?, (\d+) reads?: (.*)$", flags=re.M)
JUDGED = """const of = name => import(new URL(name, location)), {openModule} = await of("core/module.js"), {moduleBytes} = await of("core/files.js");
const module = await openModule(await moduleBytes());
return args[0].map(it => module.register(it));"""
MISSES = "return [...document.querySelectorAll('#misses button')].map(it => it.textContent)"
PRESS = "[...document.querySelectorAll('#misses button')].find(it => it.textContent.startsWith(arguments[0])).click()"
BIT = '({values: 2, registers: {b: {}}, *write(value) { %s yield write("b", value); }, *read() { %s return yield read("b"); }})\n'
GOOD = BIT % ("", "")
SAFE = ["safe", "up to 2 writes and 2 reads: 792 histories in 84 states; no larger bound is promised"]
DEPENDS = "a procedure keeps something outside of `my`, or draws by chance: what it does may depend on its answers and on `my` alone"


def found(page):
    """The class and the bound."""
    return [words(page, "bits"), words(page, "bound")]


def rank(name):
    return CLASSES.index(name) if name in CLASSES else -1


def test_constructions(page, same, _):
    """Each shipped construction shows the class of its header, with its bound; the module finds that each history misses its class, in the words beside it."""
    for path in sorted(glob.glob(os.path.join(PAGE, "constructions", "*.js"))):
        name = os.path.basename(path).removesuffix(".js")
        writes, reads, result = HEAD.search(text_of(path)).groups()
        best, *missed = result.split("; ")
        page.open(f"lab={name}")
        same(
            f"{name}: its text does not give the result away",
            [f": {result}" in page.text(), f"// {writes} writes, {reads} reads\n" in page.text()],
            [False, True],
        )
        if page.browser.run("return document.body.classList.contains('folded')"):
            page.browser.press("v")
        got, bound = found(page)
        same(f"{name}: its class", got, "not safe" if best == "no class" else best)
        same(f"{name}: its bound", bound.startswith(f"up to {writes} writes and {reads} reads"), True)
        same(f"{name}: no bound is taken for all larger ones", "; no larger bound is promised" in bound or got == "not safe", True)
        shown = page.browser.run(MISSES)
        same(f"{name}: what is missed", [it.replace(": ", " in ") for it in sorted(shown)], sorted(missed))
        recordings = []
        for it in shown:
            page.browser.run(PRESS, it.split(":")[0])
            recordings.append(
                [it.removeprefix("not ").split(":")[0], words(page, "recording"), words(page, "why"), page.count("#picture .call.fault"), words(page, "place")]
            )
        for (missing, _, why, faults, place), verdict in zip(recordings, page.browser.wait(JUDGED, [it[1] for it in recordings])):
            same(f"{name}: judged as not {missing}", rank(verdict["class"]) < rank(missing), True)
            same(f"{name}: why it is not {missing}", any(why == f"not {missing}: {it['words']}" for it in verdict["misses"]), True)
            steps = next(it for it in shown if it.startswith(f"not {missing}:")).split(": ")[1]
            same(f"{name}: its read at fault, and its steps", [faults, place], [1, f"step {steps.split()[0]} / {steps.split()[0]}"])


WRONG = [  # a text, its message, the line that is marked
    (
        '// a\n({\n  values: 2,\n  registers: {b: {}},\n  *write(value) {\n    yield write("b" value);\n  },\n  *read() { return yield read("b"); },\n})\n',
        "line 6: SyntaxError: missing ) after argument list",
        "6",
    ),
    ("({\n  values: 2,\n", "line 2: SyntaxError: Unexpected token ')'", "2"),
    (
        '({\n  values: 2,\n  registers: {b: {}},\n  *write(value) {\n    nothing();\n  },\n  *read() { return yield read("b"); },\n})\n',
        "line 5: ReferenceError: nothing is not defined",
        "5",
    ),
    ("({values: 2})", "registers: those that it is built of, by their names", None),
    ("({values: 2});\n", "registers: those that it is built of, by their names", None),
    ("", "there is no text", None),
    ("// " + "x" * 20000, "a construction has at most 20000 characters here", None),
    (BIT.replace("{b: {}}", "Object.fromEntries(Array.from({length: 1e6}, (_, i) => ['b' + i, {}]))") % ("", ""), "registers: at most 64", None),
    (BIT % ("", 'if ((globalThis.n = (globalThis.n ?? 0) + 1) % 2) yield read("b");'), DEPENDS, None),
    (BIT % ("", 'if (Math.random() < .5) yield read("b");'), DEPENDS, None),
    (BIT % ("importScripts('x.js');", ""), "line 1: ReferenceError: importScripts is not defined", "1"),
    (BIT % ("fetch('x');", ""), "line 1: ReferenceError: fetch is not defined", "1"),
    (BIT % ("new WebSocket('ws://x');", ""), "line 1: ReferenceError: WebSocket is not defined", "1"),
    (BIT % ("postMessage({found: 1});", ""), "line 1: ReferenceError: postMessage is not defined", "1"),
    (BIT % ("throw {toString() { throw 1; }};", ""), "{} was thrown", None),
    (BIT % ("yield 5;", ""), "yield read(NAME) or yield write(NAME, VALUE), of b: 5", None),
    (BIT % ('while (true) yield read("b");', ""), "an operation makes more than 64 accesses", None),
]


def marked(page):
    return page.browser.run("return document.querySelector('#numbers b')?.textContent ?? null")


def test_wrong_texts(page, same, _):
    """What is wrong with a text is reported, with its line if there is one, and the page still works."""
    page.open("lab=bit_written_on_change")
    for text, said, line in WRONG:
        page.write(text)
        same(
            f"{text[:60]!r}",
            [words(page, "bits"), marked(page), words(page, "bound"), page.count("#misses button"), seen(page, "recorded")],
            [said, line, "", 0, False],
        )
    page.write(GOOD)
    same("and then one that runs", [*found(page), marked(page)], [*SAFE, None])


HOSTILE = [  # a text that is explored as what it says, and can do no more
    BIT % ("/* </script><script>document.title = 'taken'</script> */", ""),
    "({})));\npostMessage({found: {values: 2, first: 0, readers: 1, registers: [], states: 1, isWhole: true, histories: 5, found: {}}});\n((() => ({})",
    "({})));\nself.onmessage = null;\nsetTimeout(() => 1, 0);\n((() => ({})",
]
MARKUP = GOOD.replace("b:", "'<b onclick=x>':").replace('"b"', "'<b onclick=x>'")


# Edits the text, and looks, or clicks Stop, while it runs: timed by the page, since a worker that never ends blocks the driver.
LOOPING = """const [text, isStopped] = arguments, it = document.getElementById("text"), of = id => document.getElementById(id);
window.began = performance.now();
it.value = text;
it.dispatchEvent(new Event("input"));
setTimeout(() => {
  window.during = [of("bits").textContent, of("stop").checkVisibility(), of("bound").textContent];
  if (isStopped) of("stop").click();
}, 1500);"""


def test_hostile(page, same, _):
    """No text is taken for markup or can reach the page; one that never ends is stopped, and the page says so."""
    page.open("lab=bit_written_on_change")
    page.write(HOSTILE[0])
    same("an end of a script", [*found(page), page.browser.run("return document.title")], [*SAFE, "safe"])
    for text in HOSTILE[1:]:
        page.write(text)
        same(f"{text[:50]!r} posts nothing", [words(page, "bound"), page.count("#misses button")], ["", 0])
    page.write(GOOD.replace("b:", "'\\u0001\\ud800':").replace('"b"', "'\\u0001\\ud800'"))
    same("what no picture may have", [*found(page), page.count("#picture parsererror"), page.count("#picture [data-call]")], [*SAFE, 0, 2])
    page.write(MARKUP)
    same(
        "markup in a name is text",
        [*found(page), page.count("main b"), "<b onclick=x>" in page.browser.run("return document.querySelector('#picture .write title').textContent")],
        [*SAFE, 0, True],
    )
    page.browser.run(LOOPING, BIT % ("for (;;);", ""), False)
    page.settle()
    during, took = page.browser.run("return [window.during, performance.now() - window.began]")
    same("while it runs", during, ["exploring ..", True, ""])
    same(
        "one that never ends",
        [words(page, "bits"), 12 < took / 1000 < 30],
        ["The text has not answered within 13 seconds, and was stopped: does something in it never end?", True],
    )
    page.browser.run(LOOPING, BIT % ("for (;;) ;", ""), True)
    page.settle()
    took = page.browser.run("return performance.now() - window.began")
    same("Stop", [words(page, "bits"), took < 10000], ["stopped before it was explored", True])
    page.write(GOOD)
    same("the page still works", found(page), SAFE)


COUNTED = "window.begun = 0; const Own = Worker; window.Worker = class extends Own { constructor(...all) { super(...all); window.begun++; } };"


def test_links(page, same, _):
    """Code from a link runs only when the reader asks for it; a link contains the bound, the class and the step."""
    browser = page.browser
    page.open("lab=bit_written_on_change")
    browser.run(COUNTED)
    browser.run("location.hash = arguments[0]", "#" + urllib.parse.urlencode({"construction": GOOD}))
    browser.until("it waits", "return document.getElementById('run').checkVisibility()")
    time.sleep(1.2)
    waits = "This text came by a link, and has not run: it is code. Look at it, and run it if you trust it."
    same("it has not run", [words(page, "bits"), browser.run("return window.begun"), page.count("#picture svg")], [waits, 0, 0])
    page.write(GOOD + "// mine\n")
    time.sleep(1.2)
    same("nor once it is edited", [words(page, "bits"), browser.run("return window.begun")], [waits, 0])
    browser.run("location.hash = arguments[0]", "#" + urllib.parse.urlencode({"trace": GOOD}))
    browser.until("as a trace", "return document.body.classList.contains('trace')")
    page.write(GOOD + "// again\n")
    browser.run("document.querySelector('#offers button').click()")
    same("nor once it is edited as a trace", [words(page, "bits"), browser.run("return window.begun")], [waits, 0])
    page.write(GOOD + "// mine\n")
    page.click("run")
    page.settle()
    same("it runs when it is asked to", [*found(page), browser.run("return window.begun")], [*SAFE, 1])
    link = page.hash()
    page.open(link[1:])
    same("its link", [words(page, "bits"), page.text()], [waits, GOOD + "// mine\n"])
    browser.refresh()
    browser.until("after a reload", "return document.getElementById('run')?.checkVisibility() === true")
    page.open(urllib.parse.urlencode({"recording": GOOD}))
    browser.run("document.querySelector('#offers button').click()")
    same("offered from another mode", words(page, "bits"), waits)
    page.open("lab=unary_of_the_ring&writes=2&reads=2&class=atomic&shown=5")
    same(
        "bound, class and step",
        [words(page, "bound").split(":")[0], words(page, "place"), words(page, "why")],
        ["up to 2 writes and 2 reads", "step 5 / 9", ""],
    )
    page.browser.press("right", "right", "right", "right")
    same("at the fault", [words(page, "why").startswith("not atomic: line "), page.hash()], [True, "#lab=unary_of_the_ring&writes=2&reads=2&class=atomic"])


FORGED = """const of = name => import(new URL(name, location)), {openModule} = await of("core/module.js"), {moduleBytes} = await of("core/files.js");
const {judgedFound} = await of("model/lab_found.js"), module = await openModule(await moduleBytes());
const event = text => { const [side, does, a, b] = text.split(" "); return b !== undefined || "rsg".includes(does[0]) && a && !/^\\d+$/.test(a) ? {side, does, register: a, value: b} : {side, does, value: a === undefined ? undefined : Number(a)}; };
const base = {values: 2, first: 0, readers: 1, states: 9, isWhole: true, histories: 5, registers: [{name: "b", kind: "regular", first: "0", domain: ["0", "1"]}]};
return args[0].map(([more, name, texts]) => {
  const events = texts.map(event), steps = texts.filter((it, i) => it.split(" ").length === 4 || / (read|got|wrote) [a-z]/.test(it)).length;
  const it = judgedFound(module, {...base, ...more, found: name ? {[name]: {steps, events}} : {}});
  return it.differs ?? [it.best, it.misses.map(of => [of.class, of.verdict.class])];
});"""
OLD = ["W write 1", "W write b 1", "R1 read", "R1 read b", "R1 got b 0", "R1 got 0"]
INVERTED = ["W write 1", "W write b 1", "R1 read", "R1 read b", "R1 got b 1", "R1 got 1", "R1 read", "R1 read b", "R1 got b 0", "R1 got 0"]
DIFFERS = "The explorer and the proved audit differ on the history that is “not %s”: %s."
POSTED = "what the worker of the text posted is nothing that an exploration finds"
JUDGEMENTS = [  # what is posted, and what the page shows for it
    (({}, "atomic", INVERTED), ["regular", [["atomic", "regular"]]]),
    (({}, "atomic", OLD), DIFFERS % ("atomic", "the proved audit finds it atomic")),
    (({}, "regular", INVERTED), DIFFERS % ("regular", "the proved audit finds it regular")),
    (
        ({"registers": [{"name": "b", "kind": "atomic", "first": "0", "domain": ["0", "1"]}]}, "atomic", INVERTED),
        DIFFERS % ("atomic", "the accesses of b are not atomic"),
    ),
    (({}, "atomic", INVERTED[1:]), DIFFERS % ("atomic", "it is no history")),
    (({}, "atomic", INVERTED[:4] + INVERTED[5:]), DIFFERS % ("atomic", "it is no history")),
    (({}, "atomic", ["R9 read", "R9 read b"]), POSTED),
    (({"values": "2"}, "", []), POSTED),
    (({"readers": 1e9}, "", []), POSTED),
    (({"registers": None}, "", []), POSTED),
    (({"states": "<b>"}, "", []), POSTED),
    (({"registers": [{"name": "b", "kind": "safe", "first": "0", "domain": [0]}]}, "", []), POSTED),
]


def test_judged(page, same, _):
    """What the worker posts is treated as data, and shown only if the proved audit agrees."""
    page.open("lab=bit_written_on_change")
    got = page.browser.wait(FORGED, [it for it, _ in JUDGEMENTS])
    for (posted, want), it in zip(JUDGEMENTS, got):
        same(f"posted {posted}", it, want)


def test_lab(page, same, folder):
    """A text is explored while it is typed; its history can be stepped through, saved and opened as a recording; the bound can be chosen."""
    browser = page.browser
    page.open("lab=bit_written_on_change")
    same("its class", words(page, "bits"), "regular")
    page.write(page.text().replace("if (value === my.held) return;", ""))
    same("a rule left out", [words(page, "bits"), browser.run(MISSES)[0].split(":")[0]], ["safe", "not regular"])
    same("its lesson stays beside it", [seen(page, "lesson"), seen(page, "reset")], [True, True])
    steps = int(words(page, "place").split(" / ")[1])
    browser.press("home")
    same("no step", [words(page, "place"), page.count("#picture [data-call]"), page.count("#picture .flag")], [f"step 0 / {steps}", 0, 0])
    browser.press("right")
    same("one step", [words(page, "step"), page.count("#picture [data-call]")], ["step 1: W write 0; W write b 0", 1])
    browser.press("end")
    same("all of them", [page.count("#picture .call.fault"), page.count("#picture .free[data-line]"), page.count("#picture .hatch")], [1, 1, 1])
    page.click("save")
    path = os.path.join(folder, "lab.svg")
    for _ in range(100):
        if os.path.exists(path):
            break
        time.sleep(0.05)
    same("the picture as a file", [os.path.exists(path), "not regular" in text_of(path), "<style>" in text_of(path)], [True, True, True])
    browser.run("const it = document.getElementById('writes'); it.value = 1; it.dispatchEvent(new Event('change'))")
    page.settle()
    same("another bound", words(page, "bound").startswith("up to 1 write and "), True)
    recording = words(page, "recording")
    page.click("asregister")
    same("as a recording", [page.text(), words(page, "bits")], [recording, "register: safe"])
    browser.back()
    browser.until("back in the lab", "return document.body.classList.contains('lab')")


def test_predict(page, same, _):
    """In a lab lesson with a question, the class, what is missed and the picture are folded until V is pressed."""
    lesson = next((it["name"] for it in pack.lessons() if it["mode"] == "lab" and it["question"]), None)
    page.open(f"lab={lesson}")
    parts = ["verdict", "bound", "misses", "sheet", "recorded"]
    same("folded", [seen(page, it) for it in parts], [False] * 5)
    same("but the story and the question", [seen(page, it) for it in ("story", "question", "predict")], [True] * 3)
    same("nor in the title", page.browser.run("return document.title"), "what do you expect?")
    page.browser.press("v")
    same("revealed", [seen(page, it) for it in parts[:4]] + [seen(page, "predict")], [True] * 4 + [False])


def test_registers(page, same, folder):
    """Each recording of examples/registers has the verdict of its file, and opens at its fault, which is marked with what contradicts it."""
    browser = page.browser
    page.open("register=unary")
    for path in sorted(glob.glob(os.path.join(EXAMPLES, "registers", "*.reg"))):
        name, text, verdict = os.path.basename(path).removesuffix(".reg"), text_of(path), text_of(path.replace(".reg", ".verdict")).splitlines()
        page.write(text)
        misses = [it for it in verdict[1:] if it.startswith("not ")]
        if verdict[0].startswith("refused: "):
            same(
                f"{name}: refused, at its line",
                [words(page, "bits"), marked(page) or "none", words(page, "why") != ""],
                [verdict[0], re.search(r"line (\d+)", verdict[0])[1], True],
            )
            continue
        same(f"{name}: its class", words(page, "bits"), f"register: {verdict[0]}")
        same(f"{name}: what it misses", browser.run(MISSES), [": ".join(it.split(": ")[:2]) for it in misses])
        for it in misses:
            browser.run(PRESS, it.split(":")[0] + ":")
            line = re.search(r"line (\d+)", it)[1]
            same(
                f"{name}: {it[:20]}",
                [words(page, "why"), marked(page), words(page, "place").split(" / ")[0], page.count("#picture .bar.fault")],
                [it, line, f"line {line}", 1],
            )
    page.open("register=unary")
    same(
        "what contradicts it",
        [page.count("#picture .bar.against"), page.browser.run("return [...document.querySelectorAll('#picture .lane')].map(it => it.textContent)")],
        [2, ["W", "R1", "R2"]],
    )
    browser.press("left")
    same("before the fault", [words(page, "bits"), words(page, "place"), page.count("#picture .fault")], ["register: atomic", "line 6 / 9", 0])
    same("its link", page.hash(), "#register=unary&shown=5")
    long = "register 0 2\n" + "W write 1\nR1 read\nW wrote\nR1 got 1\nW write 0\nW wrote\n" * 6500
    page.write(long + "R1 read\nR1 got 1\n")
    same(
        "a long one",
        [len(long) > 300000, words(page, "bits"), words(page, "place"), page.count("#picture .bar.fault")],
        [True, "register: not safe", "line 39003 / 39003", 1],
    )
    page.write("register 0 2\nR1 read\nR1 got 0\n")
    same(
        "an own text",
        [words(page, "bits"), page.linked("history"), words(page, "due")],
        ["register: atomic", "register 0 2\nR1 read\nR1 got 0\n", "this recording cannot tell a regular register from an atomic one"],
    )


def test_kinds_of_files(page, same, folder):
    """The kind of a file, and of a text in the wrong mode, is recognized."""
    for name, text, mode, said in [
        ("a.txt", "register 0 2\nR1 read\nR1 got 0\n", "register", "register: atomic"),
        ("b.txt", "// mine\n" + GOOD, "lab", "safe"),
        ("c.txt", "W write 1\nW wrote\n", "register", "refused: register line 1 is not a line of the format"),
    ]:
        with open(os.path.join(folder, name), "w", encoding="ascii") as file:
            file.write(text)
        page.open("example=plain_path")
        give(page, os.path.join(folder, name))
        page.settle()
        same(
            f"{name} is opened as {mode}",
            [page.browser.run("return document.querySelector('input[name=mode]:checked').value"), words(page, "bits")],
            [mode, said],
        )
        page.open("example=plain_path")
        page.write(text)
        page.browser.run("document.querySelector('#offers button').click()")
        page.settle()
        same(
            f"{name} is offered to {mode}",
            [page.browser.run("return document.querySelector('input[name=mode]:checked').value"), words(page, "bits")],
            [mode, said],
        )


def test_phone(page, same, _):
    """On a phone nothing is wider than the screen, and buttons are large enough."""
    resize(page, *PHONE)
    for link in ("lab=four_slots_regular", "lab=two_readers_told_nothing", "register=unary", "lab=bit_written_on_change"):
        page.open(link)
        same(f"{link}: nothing is wider", page.browser.run(TOO_WIDE), [False, []])
        small = "return [...document.querySelectorAll('#misses button, #lab button, #asregister')].filter(it => it.checkVisibility() && it.getBoundingClientRect().height < 43).length"
        same(f"{link}: its buttons", page.browser.run(small), 0)
    resize(page)


EXERCISE = {
    "exercise": "A <b>bit</b>",
    "task": "Make it <i>regular</i>.",
    "text": GOOD,
    "needs": {"class": "regular", "values": 2, "readers": 1, "kinds": ["safe"], "registers": 1, "accesses": 1, "writes": 2, "reads": 2},
}
SOLVED = '({values: 2, registers: {b: {}}, memory: {W: {held: 0}}, *write(value, my) { if (value !== my.held) yield write("b", my.held = value); }, *read() { return yield read("b"); }})\n'
NEEDS = "return [...document.querySelectorAll('#needs li')].map(it => [it.className, it.textContent])"


def test_exercise(page, same, folder):
    """A teacher's file shows its task and which needs are met; once all are, it shows the code to hand in, which page/check reads."""
    path, browser = os.path.join(folder, "bit.json"), page.browser
    with open(path, "w", encoding="ascii") as file:
        json.dump(EXERCISE, file)
    page.open("example=plain_path")
    give(page, path)
    page.settle()
    same(
        "its words are text",
        [words(page, "exercisename"), words(page, "task"), page.count("#exercise b, #exercise i")],
        ["A <b>bit</b>", "Make it <i>regular</i>.", 0],
    )
    missed = [it for it in browser.run(NEEDS) if it[0] != "met"]
    same(
        "what is missed, with its history",
        [missed, words(page, "why").startswith("not regular: line "), seen(page, "handing")],
        [[["", "regular: missed, in 3 steps"]], True, False],
    )
    page.write(SOLVED)
    same(
        "all is met",
        [sorted({it[0] for it in browser.run(NEEDS)}), seen(page, "handing"), browser.run("return document.getElementById('handin').disabled")],
        [["met"], True, True],
    )
    browser.run("const it = document.getElementById('student'); it.value = 'Ada'; it.dispatchEvent(new Event('input'))")
    page.click("handin")
    read = "const {readHandIn} = await import(new URL('lab/exercises.js', location)); return readHandIn(document.getElementById('code').value);"
    same("the code", browser.wait(read), {"exercise": "A <b>bit</b>", "name": "Ada", "text": SOLVED})
    page.click("savecode")
    for _ in range(100):
        if os.path.exists(os.path.join(folder, "Ada.txt")):
            break
        time.sleep(0.05)
    same("as a file", text_of(os.path.join(folder, "Ada.txt")).strip(), browser.run("return document.getElementById('code').value"))
    page.write(GOOD)
    same("and no longer", [seen(page, "handing"), seen(page, "handed")], [False, False])
    page.write(SOLVED)
    link = page.hash()
    page.open(link[1:])
    same("its link does not run", [seen(page, "run"), words(page, "exercisename"), page.text()], [True, "A <b>bit</b>", SOLVED])
    page.click("afresh")
    same("nor the text that it begins with", [seen(page, "run"), page.text(), browser.run(NEEDS)], [True, GOOD, []])
    page.click("run")
    page.settle()
    same("but then", len(browser.run(NEEDS)), 6)
    page.open(urllib.parse.urlencode({"exercise": '{"exercise": "none"}'}))
    same("a text that is not an exercise", words(page, "bits"), 'this is no exercise: field "task" is missing: a text of 1 to 20000 characters')


TESTS = [
    test_constructions,
    test_wrong_texts,
    test_hostile,
    test_links,
    test_judged,
    test_lab,
    test_predict,
    test_registers,
    test_kinds_of_files,
    test_exercise,
    test_phone,
]
