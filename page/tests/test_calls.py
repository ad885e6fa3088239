"""Tests of recorded calls in the page, for page/test. Each takes the page, a `same` that compares and a folder."""
import glob
import os
import time
import urllib.parse

from browser import EXAMPLES, text_of
from test_use import COLLISIONS, SIZES, resize, seen, words

SLOW = 20  # seconds allowed for a million lines, on a busy machine


def recordings():
    """Each shipped recording: its name, its text, and what the command prints for it."""
    for path in sorted(glob.glob(os.path.join(EXAMPLES, "calls", "*.calls"))):
        yield os.path.basename(path)[:-6], text_of(path), text_of(path[:-6] + ".verdict")


def reported(page):
    """What the page reports of a recording, as the command prints it: without the report of the lines before a fault."""
    first = words(page, "bits").removeprefix("calls: ")
    rows = (
        []
        if words(page, "reported")
        else page.browser.run("return [...document.querySelectorAll('#summary div')].map(it => [it.dataset.name, it.lastChild.textContent].join(' '))")
    )
    return "\n".join([first, *rows]) + "\n"


def flags(page):
    return page.browser.run("return [...document.querySelectorAll('#picture .flagwords')].map(it => it.textContent)")


def order(page):
    """The operations in the picture, in order."""
    titles_ = page.browser.run("return [...document.querySelectorAll('#picture .operation title')].map(it => it.textContent)")
    return [it.removesuffix(" takes effect") for it in titles_]


def titles(page):
    return page.browser.run("return [...document.querySelectorAll('#picture .bar title')].map(it => it.textContent)")


def test_findings(page, same, _):
    """Each recording has the finding that the command prints; the line at fault and the line that contradicts it are marked, and each line after the first is in a bar."""
    page.open("calls=plain")
    for name, text, verdict in recordings():
        page.write(text)
        same(f"calls {name}", reported(page), verdict)
        if verdict.startswith("refused"):
            same(f"calls {name} are not drawn", [page.count("#picture *"), seen(page, "refusal")], [0, True])
            continue
        line = int(verdict.split()[2][:-1]) if verdict.startswith("fault") else 0
        same(f"calls {name}: it opens at the fault, or the end", words(page, "place").split()[1], str(line or text.count("\n")))
        page.browser.run("document.activeElement.blur()")
        page.browser.press("end")
        marked = page.browser.run("return [...document.querySelectorAll('#numbers b')].map(it => Number(it.textContent))")
        same(f"calls {name}: the line at fault", [marked, page.count("#picture .bar.fault")], [[line], 1] if line else [[], 0])
        lines = text.splitlines()
        begun = sum(it.split()[1] in ("put", "take", "close") for it in lines[1:])
        same(f"calls {name}: bars", page.count("#picture [data-line]"), begun)
        same(f"calls {name}: lines are numbered", page.count("#picture .line"), len(lines) - 1)
        against = [word for word in verdict.splitlines()[0].split("line ")[2:3] if line]
        same(f"calls {name}: the flags", len(flags(page)), (line > 0) + len(against))
        for number in (int("".join(it for it in word if it.isdigit())) for word in [it.split()[0] for it in against]):
            same(
                f"calls {name}: what contradicts",
                [flags(page)[0], words(page, "why").startswith(f"contradicted by line {number}: {lines[number - 1]}")],
                [f"line {number}: {lines[number - 1]}", True],
            )
    page.write("queue 8\nP put 1\nP put 2\nC take\nP stored\n")
    page.browser.press("end")
    same("a call that begins in another", titles(page), ["P put 1, from line 2, not ended", "P put 2: stored, lines 3 to 5", "C take, from line 4, under way"])
    page.write("queue 8\nP put 1\nC empty\n")
    same("an end of no call", titles(page), ["P put 1, from line 2, under way", "C empty, line 3: ends no call"])
    most = 2**64 - 1
    page.write(f"queue {most}\nP put {most} {most - 1}\nC take {most}\nC item {most} {most - 2}\n")
    same("the largest numbers", reported(page), f"fault: line 4: item {most - 2} was not inside; item {most - 1} of line 2 is next\n")
    page.write(f"queue {most + 1}\n")
    same("a larger one", reported(page), "refused: calls line 1 is not a line of the format\n")


def test_long_cause(page, same, _):
    """The words of a cause with 64-bit numbers are shown whole, in the verdict and in the flag, which is inside the picture."""
    most = 2**64 - 1
    page.open("calls=plain")
    page.write(f"queue {most}\nP put {most}\nP stored\nC take\nC item {most}\nP put {most - 1}\nC take\nC item {most}\n")
    cause = f"item {most} comes again, it was taken at line 5; item {most - 1} of line 6 is next"
    same("a long cause", reported(page), f"fault: line 8: {cause}\n")
    same("its flags", flags(page), [f"line 5: C item {most}", f"line 8: {cause}"])
    same("its line", words(page, "why"), f"contradicted by line 5: C item {most}, the end of the call of line 4")
    same(
        "its flag lies in the picture",
        page.browser.run(
            """const all = document.querySelector("#picture svg").getBoundingClientRect();
        return [...document.querySelectorAll("#picture rect.flag, #picture .flagwords")].map(it => it.getBoundingClientRect()).every(it => it.left >= all.left && it.right <= all.right)"""
        ),
        True,
    )
    same("words on words", page.browser.run(COLLISIONS), [])


# An order of the operations of each recording: each recording has one, each operation is within its call, and the module accepts it; and it rejects
# one with two operations swapped.
ORDERS = """
const [{openModule}, {linesOf, callsFor, capacityIn}, {DOES, effectsOf, orderOf}] = await Promise.all(["core/module", "text/recorded_lines", "model/orders"].map(name => import(new URL(`${name}.js`, location))));
const {calls: audit, order} = await openModule(await (await fetch("made/ring_page.wasm")).arrayBuffer());
const wrong = [];
let operations = 0, turned = 0;
for (const [name, text] of Object.entries(args[0])) {
  const it = audit(text);
  if (it.refused) continue;
  const lines = linesOf(text), until = (it.line || lines.count + 1) - 2, holds = capacityIn(text), calls = callsFor(text, lines, until), effects = effectsOf(calls, holds, order);
  const ended = calls.filter(it => it.reply && it.reply !== "nothing");
  if (!ended.every(call => effects.some(it => it.call === call))) wrong.push(`${name}: a call without effect`);
  if (!effects.every(({at, call}) => call.begin < at && at < call.end)) wrong.push(`${name}: an effect outside its call`);
  const items = does => effects.filter(it => it.does === does).map(it => it.item).join();
  if (!items("in").startsWith(items("out"))) wrong.push(`${name}: ${items("in")} in, ${items("out")} out`);
  operations += effects.length;
  const made = orderOf(calls, Number(holds.most)), at = made.marks.findIndex(([kind], i) => kind === DOES.in && made.marks[i + 1]?.[0] === DOES.out);
  if (at >= 0) {
    [made.marks[at], made.marks[at + 1]] = [made.marks[at + 1], made.marks[at]];
    if (effects.length && order(made, holds) === made.marks.length && Number(holds.most) === 1) wrong.push(`${name}: an item comes out before it is in`);
    turned++;
  }
}
return {wrong, operations, turned};
"""


def test_orders(page, same, _):
    page.open("calls=plain")
    found = page.browser.wait(ORDERS, {name: text for name, text, _ in recordings()})
    same("orders of the operations", found["wrong"], [])
    same("there are some", [found["operations"] > 100, found["turned"] > 0], [True, True])
    for name, words_ in [
        ("overlapped", ["5 in", "5 out", "found fewer", "6 in"]),
        ("pending_put_taken", ["1 in", "1 out"]),
        ("put_after_close", ["close", "found closed", "close"]),
        ("order", ["1 in", "2 in"]),
    ]:
        page.write(text_of(os.path.join(EXAMPLES, "calls", f"{name}.calls")))
        same(f"the order of {name}", order(page), words_)


# Calls that do not say why they stopped short, and what is reported of them.
SOME = "queue 0 4\nP put 5 6 7\nC take 3\nP some 2\nC some 5 6\nP put 8\nP some 1\nC take 2\nC some 8\n"
SOME_REPORTED = "lawful\ncalls 4\nstored 3\ntaken 3\nfull 0\nempty 0\nnothing 0\ntold no\ninside 1 3\noverlapped 2\nopen 0\n"


def test_some(page, same, _):
    """A call that does not say why it stopped short: its bar, its order of operations, and what contradicts it."""
    page.open("calls=plain")
    page.write(SOME)
    same("some: its verdict", reported(page), SOME_REPORTED)
    same(
        "some: its queue",
        page.browser.run("return document.querySelector('#picture .title').textContent"),
        "a queue that may be full at any time, and holds 4 at most",
    )
    same(
        "some: its bars",
        titles(page),
        ["P put 5 6 7: some 2, lines 2 to 4", "C take 3: some 5 6, lines 3 to 5", "P put 8: some 1, lines 6 to 7", "C take 2: some 8, lines 8 to 9"],
    )
    same(
        "some: words in them",
        page.browser.run("return [...document.querySelectorAll('#picture .says')].map(it => it.textContent)"),
        ["some 2", "some 5 6", "some 1", "some 8"],
    )
    same("some: the order", order(page), ["5 in", "6 in", "5 out", "6 out", "8 in", "8 out"])
    page.write(SOME.replace("P some 2", "P stored 2").replace("C some 5 6", "C item 5 6"))
    same("the order if they say why", order(page), ["no room", "found fewer", "5 in", "6 in", "5 out", "6 out", "8 in", "8 out"])
    same("its verdict", [words(page, "bits"), reported(page).splitlines()[4]], ["calls: lawful", "full 1"])
    page.write("queue 4\nP put 5 6 7\nP some 2\nC take 3\nC some 6\n")
    same("some, but not the next", reported(page), "fault: line 5: item 6, but item 5 of line 2 is next\n")
    same("its order", order(page), ["5 in", "6 in"])
    same("its flags", flags(page), ["line 2: P put 5 6 7", "line 5: item 6, but item 5 of line 2 is next"])
    page.write("queue 4\nP put 5 6\nP some 3\n")
    same("more than were offered", [reported(page), titles(page)], ["fault: line 3: out of turn\n", ["P put 5 6: some 3, lines 2 to 3"]])
    page.write("queue 4\nP put 5 6\nP some 0\n")
    same("some of none", reported(page), "refused: calls line 3 is not a line of the format\n")


def test_cut(page, same, folder):
    """A recording whose first line says that later calls are missing: the page shows this beside its verdict and in its report."""
    text, said = "cut queue 2\nP put 1\nC take\nP stored\n", "cut: later calls are missing"
    page.open("calls=plain")
    same("not cut", [page.verdicts()[1], reported(page).splitlines()[-1]], ["", "open 0"])
    page.write(text)
    same(
        "cut: its verdicts",
        [page.verdicts(), page.browser.run("return [document.getElementById('ring').className, document.title]")],
        [["calls: lawful", said], ["dim", f"calls: lawful, {said}"]],
    )
    same("cut: its report", reported(page).splitlines()[-2:], ["open 1", "cut yes"])
    same("cut: its queue", [page.browser.run("return document.querySelector('#picture .title').textContent"), order(page)], ["a queue of 2", ["1 in"]])
    page.browser.run("document.getElementById('shown').focus()")
    page.browser.press("home")
    same("cut: its first line", [words(page, "place"), page.verdicts()], ["line 1 / 4", ["calls: lawful", said]])
    page.write(text.removeprefix("cut "))
    same("the same, not cut", [page.verdicts(), reported(page).splitlines()[-1]], [["calls: lawful", ""], "open 1"])
    page.write("cut queue\nC take\nC closed\n")
    same(
        "cut, with a fault",
        [page.verdicts(), reported(page)],
        [["calls: fault: line 3: closed, but no close has begun", said], "fault: line 3: closed, but no close has begun\n"],
    )
    page.write("cut queue 2\nC take")
    same("cut, and refused", page.verdicts(), ["refused: calls line 2 is not a line of the format", ""])
    page.open("recording=" + urllib.parse.quote(text))
    same("a link with a cut recording", [page.text(), page.verdicts()[1]], [text, said])
    with open(os.path.join(folder, "cut.calls"), "w", encoding="utf-8") as file:
        file.write(text)
    page.open("example=plain_path")
    give(page, os.path.join(folder, "cut.calls"))
    same("a file of a cut recording", [page.text(), page.browser.run("return document.querySelector('input[name=mode]:checked').value")], [text, "calls"])


def test_steps(page, same, _):
    """A prefix of a recording that ends before the line at fault is lawful."""
    page.open("calls=pending_take_gave_none")
    same("all of it", [words(page, "place"), words(page, "step")], ["line 7 / 7", "line 7: C empty, the end of the call of line 2"])
    for line in range(6, 0, -1):
        page.browser.press("left")
        same(
            f"up to line {line}",
            [words(page, "place"), words(page, "bits"), page.hash()],
            [f"line {line} / 7", "calls: lawful", f"#calls=pending_take_gave_none&shown={line - 1}"],
        )
    page.browser.press("right", "right")
    same("a call under way", titles(page), ["C take, from line 2, under way", "P put 1, from line 3, under way"])
    same("its report", reported(page).splitlines()[1::9], ["calls 2", "open 2"])
    page.browser.press("end")
    page.browser.run("document.querySelector('#picture [tabindex=\"0\"]').focus()")
    page.browser.press("up", "enter")
    same(
        "the line of a bar",
        page.browser.run("const it = document.getElementById('text'); return it.value.slice(it.selectionStart, it.selectionEnd)"),
        "P put 1",
    )
    page.browser.run("document.querySelector('#picture [data-line=\"2\"]').dispatchEvent(new MouseEvent('click', {bubbles: true}))")
    same(
        "a bar that is clicked",
        page.browser.run("const it = document.getElementById('text'); return it.value.slice(it.selectionStart, it.selectionEnd)"),
        "C take",
    )


def test_links(page, same, folder):
    text = "queue 1\nP put 5\nP stored\nC take\nC empty\n"
    page.open("calls=plain")
    page.write(text)
    same("its link", page.linked("recording"), text)
    page.browser.back()
    page.browser.until("Back brings the example", "return document.getElementById('example').value === 'calls plain'")
    page.open("recording=" + urllib.parse.quote(text) + "&shown=3")
    same("a link with a recording", [page.text(), words(page, "bits"), words(page, "place")], [text, "calls: lawful", "line 4 / 5"])
    page.open("recording=" + urllib.parse.quote("queue <img src=x onerror=document.title=1>"))
    same("a link is no markup", [page.title(), page.count("img, #excerpt *:not(mark)")], ["refused", 0])
    with open(os.path.join(folder, "own.calls"), "w", encoding="utf-8") as file:
        file.write(text)
    page.open("example=plain_path")
    give(page, os.path.join(folder, "own.calls"))
    same("a file of recorded calls", [page.text(), page.browser.run("return document.querySelector('input[name=mode]:checked').value")], [text, "calls"])
    page.browser.run("document.querySelector('input[value=trace]').click()")
    page.browser.until("a trace", "return document.body.classList.contains('trace')")
    page.browser.run("document.querySelector('input[value=calls]').click()")
    page.browser.until("own calls are kept", "return document.getElementById('text').value === arguments[0]", text)


def test_wrong_texts(page, same, _):
    page.open("calls=plain")
    for text, why in [
        ("", "there is no text: line 1 is to be: queue B, queue A B or queue, or one of these after cut"),
        ("shape 1 3 1\n", "it looks like a trace"),
        ("{", "it looks like a script"),
        ("queue 0\n", "line 1 is not: queue B, queue A B or queue, or one of these after cut"),
        ("cut\n", "line 1 is not: queue B, queue A B or queue, or one of these after cut"),
        ("queue 8\nP put 1 \n", "line 2 ends in a space"),
        ("queue 8\n\n", "line 2 is empty"),
        ("queue 8\nP put 01\n", "line 2 is none of the lines of recorded calls, with numbers below 2^64 that begin with no 0"),
        ("queue 8\nC take", "line 2 has no line feed at its end, or is not a line of the format"),
    ]:
        page.write(text)
        same(f"why {text!r} is refused", words(page, "why"), why)
        same(f"a sample beside {text!r}", page.browser.run("return document.querySelector('#sample dt').textContent"), "queue 4")
    page.write("queue 8\nP putt 1\nP stored\n")
    page.click("find")
    same("the place", page.browser.run("const it = document.getElementById('text'); return it.value.slice(it.selectionStart, it.selectionEnd)"), "P putt 1")
    page.open("example=plain_path")
    for text in ("queue 8\nP put 1\n", "cut queue 8\nP put 1\n"):
        page.write(text)
        same(f"{text!r} as a trace", words(page, "why"), "it looks like recorded calls")
    page.open("script=plain_path")
    for text in ("queue 8\nP put 1\n", "cut queue 8\nP put 1\n"):
        page.write(text)
        same(f"{text!r} as a script", words(page, "why"), "it looks like recorded calls")


def test_views(page, same, _):
    """At each size the verdict comes first, and no words overlap."""
    for wide, high, scale in SIZES:
        resize(page, wide, high, scale)
        for theme in ("light", "dark"):
            for name in ("batch", "order", "full_with_room", "take_short_and_closed") if theme == "light" else ("order",):
                page.open(
                    f"calls={name}&theme={theme}"
                    if name != "full_with_room"
                    else "recording=" + urllib.parse.quote(text_of(os.path.join(EXAMPLES, "calls", "full_with_room.calls")))
                )
                same(f"words on words, {wide} {theme} {name}", page.browser.run(COLLISIONS), [])
                box = page.browser.run(
                    """const it = document.getElementById("verdict").getBoundingClientRect();
                    return [scrollX, scrollY, document.documentElement.scrollWidth <= innerWidth, it.top >= 0 && it.bottom <= innerHeight / 2 && it.height > 10]"""
                )
                same(f"the verdict is seen first, {wide} {theme} {name}", box, [0, 0, True, True])
    resize(page)


def give(page, path):
    """Opens a file, and waits until it is read."""
    page.browser.upload("file", path)
    for _ in range(SLOW * 10):
        if words(page, "note").startswith(os.path.basename(path)) and page.browser.run("return document.getElementById('stop').hidden"):
            return
        time.sleep(0.1)


def test_million(page, same, folder):
    """A million lines: the window around the fault, with the contradicting line wherever it is; the editor shows some lines."""
    near = ["queue 8"] + [line for i in range(250000) for line in (f"P put {i}", "C take", "P stored", f"C item {i}")]
    near[500000] = "C item 124000"
    far = ["queue", "P put 5", "P stored"] + ["C take", "C nothing"] * 499998 + ["C take", "C empty"]
    for name, lines, finding, against in [
        ("near.calls", near, "fault: line 500001: item 124000 comes again, it was taken at line 496005; item 124999 of line 499998 is next", 496005),
        ("far.calls", far, "fault: line 1000001: empty, but item 5 was inside since line 3", 3),
    ]:
        with open(os.path.join(folder, name), "w", encoding="utf-8") as file:
            file.write("\n".join(lines) + "\n")
        page.open("calls=plain")
        began = time.time()
        give(page, os.path.join(folder, name))
        took = time.time() - began
        same(f"{name}: its finding", words(page, "bits"), f"calls: {finding}")
        same(f"{name}: the lines in the picture", flags(page), [f"line {against}: {lines[against - 1]}", finding.removeprefix("fault: ")])
        same(f"{name}: a break marks rows that are not drawn", page.count("#picture .break"), 1)
        same(f"{name}: rows", page.count("#picture .lane"), 24)
        same(f"{name}: lines in the editor", page.text().count("\n"), 400)
        same(f"{name}: the line at fault there", page.browser.run("return document.querySelector('#numbers b').textContent"), finding.split()[2][:-1])
        same(f"{name}: it is not edited", page.browser.run("return document.getElementById('text').readOnly"), True)
        began = time.time()
        page.browser.press("left")
        stepped = time.time() - began
        same(f"{name}: one back", words(page, "bits"), "calls: lawful")
        number = int(page.browser.run("return document.querySelector('#picture [data-line]').dataset.line"))
        page.browser.run("document.querySelector('#picture [data-line]').dispatchEvent(new MouseEvent('click', {bubbles: true}))")
        selected = page.browser.run("const it = document.getElementById('text'); return it.value.slice(it.selectionStart, it.selectionEnd)")
        same(f"{name}: the line of a bar", selected, lines[number - 1])
        print(f"{name}: {len(lines)} lines opened in {took:.1f} s, a step {stepped:.1f} s")
        same(f"{name}: within {SLOW} s", [took < SLOW, stepped < SLOW], [True, True])
    page.open("calls=plain")
    page.browser.run(
        """const given = new DataTransfer();
        given.setData("text/plain", arguments[0]);
        document.getElementById("text").dispatchEvent(new ClipboardEvent("paste", {clipboardData: given, bubbles: true, cancelable: true}))""",
        "\n".join(near[:100001]) + "\n",
    )
    same(
        "a long text that is pasted",
        [words(page, "bits"), words(page, "note")],
        ["calls: lawful", "lines 99602 to 100001 of 100001: too long to be edited here, and for a link"],
    )
    page.open("calls=plain")
    same("a short one is edited", page.browser.run("return document.getElementById('text').readOnly"), False)


TESTS = [test_findings, test_long_cause, test_orders, test_some, test_cut, test_steps, test_links, test_wrong_texts, test_views, test_million]
