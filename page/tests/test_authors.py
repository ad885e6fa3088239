"""Tests of what the page offers an author of a queue beside recorded calls, for page/test: moving between lines, reports, hints, small recordings,
the items inside, and how long it takes. Each takes the page, a `same` that compares and a folder."""
import glob
import os
import subprocess
import time
import urllib.parse

from browser import PAGE, TOP, Page, slack
from test_calls import flags, give, order, recordings, reported
from test_use import seen, words

PROGRAM = os.path.join(TOP, "dist", "lamport_ring")
STEPPED, OPENED = (
    60,
    1,
)  # limits for a million lines: milliseconds for a step, the best of several tries (a leap may take twice that); seconds to open them (times slack)
STEP_KEYS = ("ArrowLeft", "ArrowRight", "n", "b")
MOST_MB = 300  # of memory private to the tab


def shown(text):
    return "recording=" + urllib.parse.quote(text)


def place(page):
    return int(words(page, "place").split()[1])


def rows(page):
    return page.browser.run("return [...document.querySelectorAll('#summary div')].map(it => [it.dataset.name, it.lastChild.textContent].join(' '))")


def until_words(page, id_, part):
    page.browser.until(f"{part} in {id_}", "return document.getElementById(arguments[0]).textContent.includes(arguments[1])", id_, part)


def press(page, *keys):
    page.browser.run("document.activeElement.blur()")
    page.browser.press(*keys)


def audited(text):
    """What the command prints of recorded calls."""
    return subprocess.run([PROGRAM, "audit", "--calls"], input=text, capture_output=True, text=True, check=False).stdout


# A queue that loses item 2: calls that overlap, and some after the fault.
LOST = "queue 4\nP put 1\nC take\nP stored\nC item 1\nP put 2\nP stored\nP put 3\nC take\nP stored\nC item 3\nC take\nC empty\nP put 4\nP stored\n"


def test_ways(page, same, _):
    """A recording opens at its fault; keys and fields move from there to other lines."""
    page.open(shown(LOST))
    same("it opens at the fault", [place(page), page.hash()], [11, "#" + urllib.parse.urlencode({"recording": LOST})])
    for keys, line in [
        (["a"], 6),
        (["x"], 11),
        (["b"], 10),
        (["b"], 7),
        (["n", "n"], 11),
        (["end"], 15),
        (["x"], 11),
        (["home"], 2),
        (["b"], 2),
        (["n"], 4),
        (["left"], 3),
    ]:
        press(page, *keys)
        same(f"after {keys}", place(page), line)
    again = "queue 4\nP put 1\nP stored\nC take\nC item 1\nP put 2\nC take\nC item 1\n"
    page.write(again)
    for line in (5, 6, 5):
        press(page, "a")
        same("each line that the words name", place(page), line)
    page.write(LOST)
    press(page, "end", "n")
    same("after the last call", place(page), 15)
    press(page, "g")
    page.browser.press("8", "left", "9", "enter")
    same("to a line, while the arrows move the caret", place(page), 15)
    press(page, "g")
    page.browser.press("9", "enter", "left", "right")
    same("to a line, and the keys are the page's again", place(page), 9)
    press(page, "/")
    page.browser.press("3", "enter")
    same("to the next line of an item", [place(page), words(page, "sought")], [11, ""])
    page.browser.press("enter")
    same("there is none after it", [place(page), words(page, "sought")], [11, "no later line names it"])
    page.click("itemback")
    same("to the one before", place(page), 8)
    page.browser.run("document.getElementById('item').value = '5'")
    page.click("itemon")
    same("an item that is nowhere", [place(page), words(page, "sought")], [8, "no later line names it"])
    page.click("tofault")
    same("the button of the fault", [place(page), flags(page)[1]], [11, "line 11: item 3, but item 2 of line 6 is next"])
    page.browser.run("document.querySelector('#picture [data-line=\"6\"]').dispatchEvent(new MouseEvent('click', {bubbles: true}))")
    same("a bar that is clicked", [place(page), words(page, "bits")], [6, "calls: lawful"])
    keys = page.browser.run("return Object.fromEntries([...document.querySelectorAll('#help dt')].map(it => [it.textContent, it.nextSibling.textContent]))")
    same(
        "the keys are in the help",
        [keys.get("X, A"), keys.get("N, B") is not None, keys.get("G, /") is not None],
        ["of recorded calls: the line at fault, and the one that contradicts it", True, True],
    )
    page.open("calls=plain")
    same("no fault to go to", [seen(page, "tofault"), seen(page, "shrink"), seen(page, "callon"), place(page)], [False, False, True, 9])
    page.open("example=plain_path")
    same("a trace has none of it", seen(page, "author"), False)


def test_reports(page, same, _):
    """Beside a fault is the report of the lines before it, as the command prints it for these lines."""
    page.open("calls=plain")
    for name, text, verdict in recordings():
        if not verdict.startswith("fault"):
            continue
        line = int(verdict.split()[2][:-1])
        page.write(text)
        before = audited("".join(text.splitlines(True)[: line - 1]))
        same(f"{name}: the report before its fault", ["lawful", *rows(page), words(page, "reported")], [*before.splitlines(), f"before line {line}"])
    page.open(shown(LOST) + "&shown=6")
    same("at a line before it", [rows(page), words(page, "reported")], [audited("".join(LOST.splitlines(True)[:7])).splitlines()[1:], ""])
    press(page, "end")
    same("at a line after it", words(page, "reported"), "before line 11")


def filled(count, first=0):
    return "".join(f"P put {first + i}\nP stored\n" for i in range(count))


HINTED = [  # a recording with a fault, how a hint begins, and the edit that its button makes
    (
        "queue 8\n" + filled(7) + "P put 7\nP full\nC take\nC item 0\n" + filled(1, 7) + "P put 8\nP full\n",
        "It held 7, not the 8 of its first line: try queue 7. Then it is lawful.",
        ("queue 8", "queue 7"),
    ),
    ("queue 8\n" + filled(10), "It held 10, not the 8 of its first line: try queue 10. Then it is lawful.", ("queue 8", "queue 10")),
    (
        "queue 4\n" + filled(4) + "C take\nC item 0\nP put 4\nP full\n",
        "It may report full with 3 inside, and holds 4: queue 3 4 allows that. Then it is lawful.",
        ("queue 4", "queue 3 4"),
    ),
    (
        "queue 8\n" + filled(6) + "P put 6 7 8\nP full\n",
        "This put of 3 is all or nothing: P short says that there was not room for all. Then it is lawful.",
        ("P full", "P short"),
    ),
    (
        "queue 8\nP put 1\nP put 2\nP stored\nP stored\nC take\nC item 1\n",
        "A put begins in line 3 while the call of line 2 has not ended: two producers? A recording has one. Then it is lawful.",
        ("P put 2\nP stored\n", ""),
    ),
    (
        "queue 8\nC take\nC take\nC empty\nC empty\nP put 1\nP stored\n",
        "A take begins in line 3 while the call of line 2 has not ended: two consumers? A recording has one. Then it is lawful.",
        ("C take\nC empty\n", ""),
    ),
    (
        "queue 8\nP put 1 2\nP stored\nC take 2\nC item 1\n",
        "This take stops before all that is inside: C some says what it took, and not why not more. Then it is lawful.",
        ("C item", "C some"),
    ),
    (
        "queue 8\nP put 1 2\nP stored 1\nP put 2\nP stored\n",
        "This put stops before the queue is full: P some says how many were stored, and not why not more. Then it is lawful.",
        ("P stored 1", "P some 1"),
    ),
    (
        "queue 8\nP close\nP closed\nC take\nC empty\n",
        "This take found the queue empty and closed: C closed says so. Then it is lawful.",
        ("C empty", "C closed"),
    ),
]


def test_hints(page, same, _):
    """A hint is beside a fault if the module finds less wrong with the recording as the hint edits it; its button makes the edit."""
    for text, said, (old, new) in HINTED:
        page.open(shown(text))
        until_words(page, "hints", said)
        page.browser.run("[...document.querySelectorAll('#hints p')].find(it => it.textContent.startsWith(arguments[0])).querySelector('button').click()", said)
        same(f"{said}: its button", [words(page, "bits"), page.text()], ["calls: lawful", text.replace(old, new, 1)])
        same(f"{said}: it is gone", words(page, "hints"), "")
    for name in ("order", "again", "not_put", "empty_while_inside", "closed_while_inside", "full_but_taken"):
        page.open("calls=plain")
        page.write(next(text for it, text, _ in recordings() if it == name))
        page.browser.wait("await new Promise(done => setTimeout(done, 300))")  # the hints are requested
        page.click("shrink")  # and is answered after them
        until_words(page, "shrunk", "lines")
        same(f"{name}: no habit explains it", words(page, "hints"), "")


# The smallest recordings of the faulty ones, from the code that the worker runs: {name: [milliseconds, text]}.
SHRUNK = """
const [{openModule}, {linesOf}, {shrunk}] = await Promise.all(["core/module", "text/recorded_lines", "model/shrinking"].map(name => import(new URL(`${name}.js`, location))));
const module = await openModule(await (await fetch("made/ring_page.wasm")).arrayBuffer()), found = {};
for (const [name, text] of Object.entries(args[0])) {
  const began = performance.now(), it = shrunk(module, text, linesOf(text), module.calls(text), () => performance.now() > began + 5000, () => {});
  found[name] = [performance.now() - began, it.text];
}
return found;
"""


def without_numbers(verdict):
    return "".join("N" if it.isdigit() else it for it in verdict.splitlines()[0]).replace("NN", "N").replace("NN", "N").replace("NN", "N")


def lossy(lines):
    """A recording of about this many lines, of overlapping calls, including puts of several items, in the middle of which an item is lost."""
    made, item, taken = ["queue 9"], 0, 0
    while len(made) < lines - 8:
        made += [f"P put {item} {item + 1}", "C take", "P stored", f"C item {taken}", "C take 4", f"P put {item + 2}", f"C some {taken + 1}", "P stored"]
        item, taken = item + 3, taken + 2 + (len(made) // 8 == lines // 16)
        if item - taken > 6:
            made += ["C take 5", "C item " + " ".join(map(str, range(taken, taken + 5)))]
            taken += 5
    return "\n".join(made) + "\n"


def test_shrink(page, same, folder):
    """A small recording has a fault with the same words, in its last line, according to the command's own audit; it equals that of record/shrink."""
    page.open("calls=plain")
    texts = {name: text for name, text, verdict in recordings() if verdict.startswith("fault")}
    texts["of 100,000 lines"] = lossy(100000)
    found = page.browser.wait(SHRUNK, texts)
    for name, (took, small) in found.items():
        verdict, whole = audited(small), audited(texts[name])
        same(f"the small recording of {name}", [without_numbers(verdict), verdict.split()[2]], [without_numbers(whole), f"{small.count(chr(10))}:"])
        with open(os.path.join(folder, "whole.calls"), "w", encoding="ascii") as file:
            file.write(texts[name])
        same(
            f"that of record/shrink, of {name}",
            small,
            subprocess.run([os.path.join(TOP, "record", "shrink"), file.name], capture_output=True, text=True, check=False).stdout,
        )
        same(f"it is quick, of {name}", took < 5000, True)
    print(f"shrink: {len(found)} recordings, {max(it for it, _ in found.values()):.0f} ms at most, of 100,000 lines {found['of 100,000 lines'][0]:.0f} ms")
    # as a user does it, in the worker
    page.write(texts["again"])
    meanwhile = page.browser.run(
        """const it = document.getElementById("shrink"), shown = () => [it.textContent, document.getElementById("shrunk").textContent];
        it.click();
        const before = shown();
        it.click();
        return before"""
    )
    same("it can be stopped", meanwhile, ["Stop", "looking .."])
    time.sleep(0.3)
    same("it is stopped", [words(page, "shrink"), words(page, "shrunk")], ["Shrink", ""])
    page.click("shrink")
    until_words(page, "shrunk", "7 lines: fault: line 7: item")
    with open(os.path.join(folder, "lossy.calls"), "w", encoding="ascii") as file:
        file.write(texts["of 100,000 lines"])
    give(page, file.name)
    began = time.time()
    page.click("shrink")
    until_words(page, "shrunk", "fault: line")
    print(f"shrink of 100,000 lines in the page: {time.time() - began:.1f} s")
    small = found["of 100,000 lines"][1]
    page.browser.run("[...document.querySelectorAll('#shrunk button')].find(it => it.textContent === 'Save').click()")
    saved = os.path.join(folder, "recording.small.calls")
    for _ in range(100):
        if os.path.exists(saved):
            break
        time.sleep(0.05)
    with open(saved, encoding="ascii") as file:
        same("it is saved", file.read(), small)
    page.browser.run("[...document.querySelectorAll('#shrunk button')].find(it => it.textContent === 'Show').click()")
    same("it is shown, with a link", [page.text(), page.linked("recording"), words(page, "shrunk")], [small, small, ""])
    page.browser.back()
    page.browser.until(
        "Back brings the whole", "return document.getElementById('place').textContent.endsWith(arguments[0])", f"/ {texts['of 100,000 lines'].count(chr(10))}"
    )


def test_from_disk(page, same, _):
    """The page in one file, opened from the disk, runs its worker under its own policy."""
    disk = Page(page.browser, "file://" + os.path.join(PAGE, "lamport_ring.html"))
    disk.open(shown(HINTED[0][0]))
    until_words(disk, "hints", "try queue 7")
    disk.click("shrink")
    until_words(disk, "shrunk", "3 lines: fault: line 3: full")
    same("its policy", disk.browser.run("return /worker-src blob:;/.test(document.querySelector('meta[http-equiv]').content)"), True)
    page.open("calls=plain")
    page.browser.run("window.Worker = class { constructor() { throw new Error('none') } }")
    page.write(LOST)
    page.click("shrink")
    same("a browser without workers", words(page, "shrunk"), "This browser lets no worker run here: record/shrink looks for it.")


# For each line of lawful prefixes the count of items inside, against the module's report, which has the maximum of both so far.
COUNTED = """
const [{openModule}, {linesOf, capacityIn}, {countsAt, rowsAtLine}] = await Promise.all(["core/module", "text/recorded_lines", "model/items_in_recording"].map(name => import(new URL(`${name}.js`, location))));
const module = await openModule(await (await fetch("made/ring_page.wasm")).arrayBuffer()), wrong = [];
let count = 0;
for (const [name, text] of Object.entries(args[0])) {
  const whole = module.calls(text);
  if (whole.refused) continue;
  const lines = linesOf(text), {most} = capacityIn(text);
  let low = 0, high = 0;
  for (let line = 1; line < (whole.line || lines.count + 1); line++, count++) {
    const it = countsAt(lines, line, most), {surely, perhaps} = module.calls(text, lines.starts[line + 1]).report, items = rowsAtLine(text, lines, line)[1].parts.filter(it => /^\\d/.test(it.words));
    low = Math.max(low, it.low);
    high = Math.max(high, it.high);
    if (low !== Number(surely) || high !== Number(perhaps)) wrong.push(`${name} line ${line}: ${low} ${high}, not ${surely} ${perhaps}`);
    if (items.filter(it => !it.isOpen).length !== it.low) wrong.push(`${name} line ${line}: items`);
  }
}
return {wrong, count};
"""


def inside(page):
    """The items in the panel; those perhaps inside are in brackets."""
    return page.browser.run(
        "return [...document.querySelectorAll('#inside .row')].map(row => [...row.querySelectorAll('.part')].map(it => it.classList.contains('open') ? `(${it.textContent})` : it.textContent).join(' '))"
    )


def test_inside(page, same, _):
    """The count inside at each line agrees with the module's report; the panel shows the items; the strip shows the run."""
    page.open("calls=plain")
    found = page.browser.wait(COUNTED, {name: text for name, text, _ in recordings()})
    same("what is counted inside", [found["wrong"], found["count"] > 250], [[], True])
    page.open(shown(LOST))
    for line, rows_ in [
        (2, ["0 to 1", "(1)"]),
        (3, ["0 to 1", "(1)"]),
        (4, ["0 to 1", "(1)"]),
        (5, ["0", "–"]),
        (7, ["1", "2"]),
        (8, ["1 to 2", "2 (3)"]),
        (9, ["0 to 2", "(2) (3)"]),
        (11, ["1 to 2", "(2) 3"]),
        (15, ["1 to 2", "(2) 3"]),
    ]:
        page.browser.run("const it = document.getElementById('shown'); it.value = arguments[0]; it.dispatchEvent(new Event('input'))", line - 1)
        same(f"inside at line {line}", inside(page), rows_)
    page.write("queue\nP put " + " ".join(map(str, range(100, 140))) + "\nP stored\nP close\nP closed\n")
    same("many items, and closed", inside(page), ["40", " ".join(map(str, range(100, 124))) + " and 16 more closed"])
    page.write(LOST)
    box = page.browser.run("const it = document.querySelector('#strip svg').getBoundingClientRect(); return [it.left, it.top, it.width, it.height]")

    def drag(*parts):
        page.browser.drag([(round(box[0] + box[2] * part), round(box[1] + box[3] / 2)) for part in parts])

    same(
        "the strip",
        [
            words(page, "strip"),
            page.browser.run(
                "return ['fault', 'against', 'cursor'].map(it => Math.round(Number(document.querySelector(`#strip .${it}`).getAttribute('x')) / 1000 * 15 + 0.7))"
            ),
        ],
        ["lines 1 to 15 of 15 · up to 2 inside", [11, 6, 11]],
    )
    drag(6.5 / 15)
    same("a click on the strip", place(page), 7)
    long_ = "queue 5\n" + "".join(f"P put {i}\nP stored\n" + (f"C take\nC item {i}\n" if i > 3 else "") for i in range(100))
    page.write(long_)
    drag(0.5, 0.75)
    first, last = map(int, words(page, "strip").split(" of ")[0].removeprefix("lines ").split(" to "))
    same("a dragged range is enlarged", [abs(first - 198) < 5, abs(last - 296) < 5], [True, True])
    press(page, "home")
    same("the strip follows the cursor", words(page, "strip").startswith("lines 1 to "), True)
    page.browser.run("document.querySelector('#strip svg').dispatchEvent(new MouseEvent('dblclick', {bubbles: true}))")
    same("a double click", words(page, "strip"), f"lines 1 to {long_.count(chr(10))} of {long_.count(chr(10))} · up to 5 inside")


# For parts of a long recording: around each line that has a quiet line before it there is an order of its calls, each operation within its call,
# which continues from the items inside there: appended to an order of all earlier calls it is an order of the recording, according to the module.
ROUND = """
const [{openModule}, {WORDS}, {linesOf, callsFor, capacityIn, startBefore}, {effectsOf, orderOf}] = await Promise.all(["core/module", "core/words", "text/recorded_lines", "model/orders"].map(name => import(new URL(`${name}.js`, location))));
const {order} = await openModule(await (await fetch("made/ring_page.wasm")).arrayBuffer()), [text, until] = args, lines = linesOf(text), holds = capacityIn(text), most = Number(holds.most), wrong = [];
let stretches = 0;
for (let line = 300; line < until; line += 97) {
  const start = startBefore(text, lines, line), past = Math.min(until, line + 300) - 2;
  if (!start) continue;
  const calls = callsFor(text, lines, past, start), effects = effectsOf(calls, holds, order);
  stretches++;
  if (!effects.length) wrong.push(`${line}: no order`);
  if (effects.some(({at, call}) => at <= call.begin || at >= call.end || call.begin < start - 1)) wrong.push(`${line}: an operation out of its call`);
  const before = orderOf(callsFor(text, lines, start - 1), most), round = orderOf(calls, most), count = lines.stored[start] - lines.taken[start];
  const shifted = ([kind, value, of]) => [kind, kind < WORDS.length ? value - count + before.numbers.length : value, of];
  const marks = [...before.marks, ...round.marks.slice(count ? count + 2 : 0).map(shifted)];
  const joined = {marks, items: [...before.items, ...round.items.slice(count)], numbers: [...before.numbers, ...round.numbers.slice(count)]};
  if (order(joined, holds) !== marks.length) wrong.push(`${line}: no order of all`);
}
return {wrong, stretches};
"""


def test_long_orders(page, same, folder):
    """In a long recording the order of operations is drawn around the cursor, from a line at which no call was under way."""
    text = lossy(4000)
    line = int(audited(text).split()[2][:-1])
    page.open("calls=plain")
    for of in (text, text.replace("queue 9", "queue 0 9")):
        found = page.browser.wait(ROUND, of, line)
        same("orders in a long recording", found if isinstance(found, str) else [found["wrong"], found["stretches"] > 10], [[], True])
    with open(os.path.join(folder, "long.calls"), "w", encoding="ascii") as file:
        file.write(text)
    give(page, file.name)
    some = order(page)
    same(
        "the order around its fault",
        [place(page), len(some) > 20, any(it.endswith(" in") for it in some), any(it.endswith(" out") for it in some)],
        [line, True, True, True],
    )
    page.write("queue\nC take\n" + "P put 1\nP stored\n" * 2000)
    same("no order if a call is always under way", [order(page), words(page, "bits")], [[], "calls: lawful"])
    same("the calls after the cursor are pale", page.count("#picture .later"), 0)
    press(page, "home")
    same("and there are some", page.count("#picture .later") > 20, True)


# A step back and forward by the keys, and to the next call, the last line, the fault: the milliseconds that each takes up to the next frame.
STEPS = """
const took = {};
for (const key of ["ArrowLeft", "ArrowRight", "n", "b", "End", "x", "Home", "x", "a"]) {
  const began = performance.now();
  document.body.dispatchEvent(new KeyboardEvent("keydown", {key, bubbles: true, cancelable: true}));
  await new Promise(done => requestAnimationFrame(() => setTimeout(done)));
  took[key] = Math.min(took[key] ?? Infinity, performance.now() - began);
}
return took;
"""


def megabytes(page):
    """The private memory of the page's tab, the largest of the browser's tabs."""
    parents, own = {}, {}
    for path in glob.glob("/proc/[0-9]*"):
        try:
            with open(f"{path}/status", encoding="ascii", errors="replace") as file:
                fields = dict(line.split(":", 1) for line in file.read().splitlines() if ":" in line)
            with open(f"{path}/cmdline", encoding="utf-8", errors="replace") as file:
                is_tab = "--type=renderer" in file.read()
        except OSError:
            continue
        parents[int(fields["Pid"])] = int(fields["PPid"])
        if is_tab:
            own[int(fields["Pid"])] = int(fields["RssAnon"].split()[0]) // 1024

    def is_of_browser(pid):
        while pid in parents and pid != page.browser.pid():
            pid = parents[pid]
        return pid == page.browser.pid()

    return max(own[pid] for pid in own if is_of_browser(pid))


def lawful(lines):
    return "queue 8\n" + "".join(f"P put {i}\nC take\nP stored\nC item {i}\n" for i in range(lines // 4))


def test_sizes_of_recordings(page, same, folder):
    """Recordings of 100 to a million lines, lawful and faulty: how long a step takes, and how much memory the tab uses."""
    for lines in (100, 100000, 1000000):
        for kind, text in (("lawful", lawful(lines)), ("at fault", lossy(lines))):
            path = os.path.join(folder, f"of_{lines}_{kind.replace(' ', '_')}.calls")
            with open(path, "w", encoding="ascii") as file:
                file.write(text)
            page.open("calls=plain", emptied=True)
            began = time.time()
            give(page, path)
            opened = time.time() - began
            same(f"{lines} lines, {kind}: the verdict", words(page, "bits"), f"calls: {audited(text).splitlines()[0]}")
            page.browser.run("document.activeElement.blur()")
            runs = [page.browser.wait(STEPS) for _ in range(5)]
            took = {key: min(run[key] for run in runs) for key in runs[0]}
            page.browser.run("document.getElementById('shrink').click()" if kind == "at fault" else "")
            if kind == "at fault":
                until_words(page, "shrunk", "fault: line")
            used = megabytes(page)
            print(
                f"{lines} lines, {kind}: opened in {opened:.1f} s; a step {max(took[key] for key in STEP_KEYS):.0f} ms, a leap {max(took.values()):.0f} ms; {used} MB"
            )
            same(f"{lines} lines, {kind}: opened", opened < OPENED * slack(), True)
            same(f"{lines} lines, {kind}: steps", {key: it for key, it in took.items() if it > slack() * STEPPED * (1 if key in STEP_KEYS else 2)}, {})
            same(f"{lines} lines, {kind}: memory", used < MOST_MB, True)
    page.open("calls=plain")
    page.browser.run("document.activeElement.blur()")


TESTS = [test_ways, test_reports, test_hints, test_shrink, test_from_disk, test_inside, test_long_orders, test_sizes_of_recordings]
