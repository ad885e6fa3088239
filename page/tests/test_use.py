"""Tests of using the page, for page/test: own texts, lessons, sizes, numbers. Each takes the page, a `same` that compares and a folder."""
import json
import os
import time
import urllib.parse

import pack

SIZES = [(390, 844, 1), (683, 384, 2), (1366, 768, 1), (1920, 1080, 1)]  # the second is 1366 at 200 % zoom
NAMED = {"trace": "example", "script": "script", "calls": "calls", "register": "register", "lab": "lab"}  # the parameter that names an example in a link
BLOCK = "P write s0 0\nC read s0\nC got s0 1\nP wrote s0\n"


def resize(page, wide=None, high=None, scale=1):
    """Gives the page a size, as on another screen, or without arguments its own size again."""
    page.browser.resize(wide, high, scale)


def media(page, kind="", **features):
    named = [{"name": name.replace("_", "-"), "value": value} for name, value in features.items()]
    page.browser.devtools("Emulation.setEmulatedMedia", {"media": kind, "features": named})


def words(page, id_):
    page.settle()
    return page.browser.run("return document.getElementById(arguments[0]).textContent", id_)


def seen(page, id_):
    return page.browser.run("return document.getElementById(arguments[0]).checkVisibility()", id_)


def show(page, it, more=""):
    """Shows a lesson with its findings."""
    page.open(f"{NAMED[it['mode']]}={it['name']}{more}")
    if it["mode"] == "lab" and it["question"]:
        page.browser.press("v")


def test_own(page, same, folder):
    trace, script = "shape 1 3 1\nP write s0 1\nC read s0\nC got s0 0\n", '{"<img src=x>":"&amp;+% \u00e9"}'
    page.open("example=plain_path")
    page.write(trace)
    same("an own trace", [page.title(), page.linked("trace")], ["lawful", trace])
    page.browser.back()
    page.browser.until("Back brings the example", "return document.getElementById('example').value === 'trace plain_path'")
    page.browser.forward()
    page.browser.until("Forward brings the own trace", "return document.getElementById('text').value === arguments[0]", trace)
    page.browser.press("left")
    link = page.hash()
    page.open(link[1:])
    same("a link with an own trace", [page.text(), page.title(), page.hash(), words(page, "place")], [trace, "lawful", link, "line 3 / 4"])
    page.open("play=" + urllib.parse.quote(script))
    same("a link with a script", [page.text(), page.words(), page.linked("play")], [script, "refused: script has an unknown field", script])
    page.open("trace=" + urllib.parse.quote("<img src=x onerror=document.title=1><script>document.title=2</script>"))
    same("a link is no markup", [page.title(), page.count("img, #excerpt *:not(mark)")], ["refused", 0])
    page.open("example=plain_path")
    page.click("next")
    page.browser.until("the next lesson", "return document.getElementById('example').value !== 'trace plain_path'")
    page.browser.back()
    page.browser.until("Back brings the lesson", "return document.getElementById('example').value === 'trace plain_path'")

    # files
    for name, text, mode in [
        ("own.trace", trace, "trace"),
        ("own.json", pack.examples()["examples/two_cells.json"].decode(), "script"),
        ("crlf.txt", trace.replace("\n", "\r\n"), "trace"),
    ]:
        with open(os.path.join(folder, name), "w", encoding="utf-8", newline="") as file:
            file.write(text)
        page.browser.upload("file", os.path.join(folder, name))
        page.browser.until(f"{name} is opened", "return document.getElementById('note').textContent.startsWith(arguments[0])", name)
        same(f"{name}", [page.text(), page.browser.run("return document.querySelector('input[name=mode]:checked').value")], [text.replace("\r", ""), mode])
    same("dropped carriage returns are reported", words(page, "note"), "crlf.txt, without its carriage returns")
    page.browser.run(
        """const data = new DataTransfer();
        data.items.add(new File([arguments[0]], "dropped.trace"));
        document.body.dispatchEvent(new DragEvent("drop", {dataTransfer: data, bubbles: true, cancelable: true}))""",
        trace + "C read s0\n",
    )
    page.browser.until("a file is dropped", "return document.getElementById('note').textContent === 'dropped.trace'")
    same("its text", page.text(), trace + "C read s0\n")
    page.write("P\n" * 110000)
    same("a text too long for a link", [page.linked("trace"), "too long" in words(page, "note")], [None, True])


def test_refusals(page, same, _):
    page.open("example=new_old_inversion")
    bars = page.count("#picture [data-line]")
    page.write("shape 1 3 1\nP write s0 0\nC raed s0\nC got s0 1\n")
    same("the last picture is kept", [page.count("#last [data-line]"), page.count("#picture *"), seen(page, "last")], [bars, 0, True])
    same("the place", words(page, "excerpt"), "line 3, column 1: C raed s0")
    same("a sample", page.browser.run("return document.querySelector('#sample dt').textContent"), "shape 1 3 1")
    page.click("find")
    selected = "const it = document.getElementById('text'); return it.value.slice(it.selectionStart, it.selectionEnd)"
    same("it is selected", page.browser.run(selected), "C raed s0")
    page.write("shape 1 3 1\nP write s0 0\nC read s0\nC got s0 1\n")
    same("mended", [seen(page, "last"), seen(page, "refusal"), page.title()], [False, False, "lawful"])
    whole = json.loads(pack.examples()["examples/plain_path.json"])
    page.open("script=plain_path")
    for text, place, sample in [
        (json.dumps({**whole, "schedule": "P8X"}), "X", "{"),
        (json.dumps({**whole, "items": [1, 0, 2]}), "2", "{"),
        (json.dumps({**whole, "oracle": "012"}), "2", "{"),
        ('{"capacity" 1}', "1", "{"),
        ('{"capacity":[1,]}', "]", "{"),
        (json.dumps({**whole, "takes": "one"}), '"takes": "one"', "{"),
        ('{"a":1', "", "{"),
        ("[1]x", "x", "{"),
    ]:
        page.write(text)
        page.click("find")
        same(f"the place in {text}", page.browser.run(selected), place)
        same(f"a sample beside {text}", page.browser.run("return document.querySelector('#sample pre').textContent").startswith(sample), True)
    page.open("")
    page.browser.run("document.activeElement.blur()")
    page.browser.press("?")
    same("help", [seen(page, "help"), all(it in words(page, "help") for it in ("Home, End", "P write s0 0", "schedule"))], [True, True])
    page.browser.press("escape")
    same("help is closed", seen(page, "help"), False)
    # the samples are valid
    lines = page.browser.run("return [...document.querySelectorAll('#traceformat dt')].map(it => it.textContent)")
    page.write("\n".join(lines[:1] + lines[2:4] + lines[1:2] + lines[4:]) + "\n")
    same("the sample of a trace", page.title(), "lawful")
    page.browser.run("document.querySelector('input[value=script]').click()")
    page.browser.until("a script", "return document.body.classList.contains('script')")
    page.write(page.browser.run("return document.querySelector('#scriptformat pre').textContent"))
    same("the sample of a script", page.title(), "played 18 of 18 letters")
    page.browser.run("document.querySelector('input[value=calls]').click()")
    page.browser.until("calls", "return document.body.classList.contains('calls')")
    lines = page.browser.run("return [...document.querySelectorAll('#callsformat dt')].map(it => it.textContent)")
    page.write("\n".join(lines[:2] + lines[3:4] + lines[2:3] + lines[4:]) + "\n")
    same("the sample of calls", page.title(), "calls: lawful")


def test_reach(page, same, _):
    """Each bar can be reached by keys, and its name, the step and the reason of a fault are announced."""
    page.open("example=stale_read_after_inversion")
    roles = page.browser.run("return ['verdict', 'why', 'due', 'step'].map(id => document.getElementById(id).getAttribute('role'))")
    same("what is announced", roles, ["status"] * 4)
    same("the reason", words(page, "why"), "s0 holds 0 since line 7, and no write overlaps the read of line 8: it has to answer 0")
    same("the step", words(page, "step"), "line 9: C got s0 1")
    page.browser.press("left")
    same("no reason", [words(page, "why"), words(page, "step")], ["", "line 8: C read s0"])
    page.browser.press("left", "left")
    same("a step that may return anything", words(page, "step"), "line 6: C got s0 1, and a write overlaps the read: any answer is permitted")
    page.browser.press("end")
    page.browser.run("document.querySelector('#picture [tabindex=\"0\"]').focus()")
    names = []
    for _ in range(4):
        names.append(page.browser.run("return document.activeElement.dataset.line + ' ' + document.activeElement.getAttribute('aria-label')"))
        page.browser.press("up")
    same("bars", names, ["8 C reads s0: 1, lines 8 to 9", "5 C reads s0: 1, lines 5 to 6", "3 C reads s0: 0, lines 3 to 4", "2 P writes 0 to s0, lines 2 to 7"])
    page.browser.press("down", "enter")
    same(
        "the line of a bar",
        page.browser.run("const it = document.getElementById('text'); return it.value.slice(it.selectionStart, it.selectionEnd)"),
        "C read s0",
    )
    page.open("example=plain_path")
    page.browser.run("document.querySelector('#picture [tabindex=\"0\"]').focus()")
    page.browser.press("left")
    same("the focus stays", page.browser.run("return document.activeElement.dataset.line"), "18")


REASONS = [  # a text, and the reasons beside its two verdicts
    ("shape 1 3 1\nC read s0\nC got s0 0\n", "s0 holds 1 from the start, and no write overlaps the read of line 2: it has to answer 1", ""),
    (
        "shape 1 3 1\nP write s0 0\nP wrote s0\nP write s0 1\nP wrote s0\nC read s0\nC got s0 0\n",
        "s0 holds 1 since line 5, and no write overlaps the read of line 6: it has to answer 1",
        "",
    ),
    ("shape 1 3 1\nP write s0 0\nP wrote s1\n", "P's write of s0 in line 2 is open: its end was to come", ""),
    ("shape 1 3 1\nC read s0\nP read r1\n", "", "in line 3 was due: P read r0, or write x 1"),
    ("shape 1 3 1\nP read r0\nP got r0 1\nP read r0\n", "", "in line 4 was due: P write c0.0 0 or 1"),
    ("shape 1 3 1\nP read r0\nC got s0 1\n", "C has no access open that this could end", ""),
    ("shape 1 3 1\nP read r0\nP got r0 1\nP got r0 1\n", "P has no access open that this could end", ""),
    ("shape 1 3 1\nP read r0\nP read r1\n", "P's read of r0 in line 2 is open: its end was to come", ""),
    ("shape 1 3 1\nP read r0\nP got r0 1\nP write c0.0 1\nP wrote c0.0\nP write c0.0 0\n", "", "in line 6 was due: P write s1 1"),
    ("shape 1 3 1\nC read s0\nC got s0 1\nC read s0\n", "", "in line 4 was due: C read x"),
    ("shape 1 3 1\nP write x 1\nP wrote x\nP read r0\n", "", "in line 4 nothing was due of P: it has made its last call"),
    ("shape 1 3 1\nC write s0 0\n", "the bit is not of the shape, or this side may not do this to it", ""),
]


def test_reasons(page, same, _):
    """Beside a fault is what was due: the bit's value and since when, or the accesses with which the program may continue."""
    page.open("example=count_before_cell")
    same("what was due", words(page, "due"), "in line 4 was due: P write c0.0 0 or 1")
    page.browser.press("home", "right", "right")
    same("before it is shown", [words(page, "ring"), words(page, "due")], ["ring: follows the programs", ""])
    for text, why, due in REASONS:
        page.write(text)
        same(f"the reasons of {text!r}", [words(page, "why"), words(page, "due")], [why, due])


def calls_of(page):
    return page.browser.run("return [...document.querySelectorAll('#picture [data-call] title')].map(it => it.textContent)")


# The words over braces, parts, bars and flags that overlap, or lie outside the picture.
COLLISIONS = """if (!document.querySelector("#picture svg")) return []; // of a construction that misses no class
const texts = [...document.querySelectorAll("#picture .callwords, #picture .part, #picture .bit, #picture .flagwords, #picture .legend, #picture .asks, #picture .says, #picture .effect")].map(it => [it.textContent, it.getBoundingClientRect()]);
const room = document.querySelector("#picture svg").getBoundingClientRect(), found = texts.filter(([, it]) => it.left < room.left - 1 || it.right > room.right + 1).map(([text]) => text);
texts.forEach(([text, a], i) => texts.slice(0, i).forEach(([other, b]) => {
  if (a.left < b.right - 1 && b.left < a.right - 1 && a.top < b.bottom - 3 && b.top < a.bottom - 3) found.push(`${text} on ${other}`);
}));
const signs = [...document.querySelectorAll("#picture g[transform] > :not(text)")].map(it => it.getBoundingClientRect());
for (const [text, a] of texts) for (const b of signs) if (a.left < b.right + 3 && b.left < a.right + 3 && a.top < b.bottom - 3 && b.top < a.bottom - 3) found.push(`${text} on a sign`);
return found;"""


def test_collisions(page, same, _):
    """No words of the picture overlap, at each size, light and dark."""
    lessons = pack.lessons()
    for wide, high, scale in SIZES:
        resize(page, wide, high, scale)
        for it in lessons if wide == 1366 else lessons[::4]:
            for theme in ("light", "dark") if it is lessons[0] or it["name"] == "stale_item" else ("light",):
                show(page, it, f"&theme={theme}")
                same(f"words on words, {wide} {theme} {it['mode']} {it['name']}", page.browser.run(COLLISIONS), [])
    for wide, high, scale in SIZES:
        resize(page, wide, high, scale)
        for theme in ("light", "dark"):
            page.open(f"example=stale_item&theme={theme}")
            seen_both = page.browser.run(
                """return ["bits", "ring", "due"].map(id => document.getElementById(id).getBoundingClientRect()).every(it => it.height > 8 && it.top >= 0 && it.bottom <= innerHeight / 2
                && it.right <= innerWidth)"""
            )
            same(f"both verdicts are seen first, {wide} {theme}", seen_both, True)
            colours = page.browser.run("return ['bits', 'ring'].map(id => getComputedStyle(document.getElementById(id)).color)")
            same(
                f"their colours, {wide} {theme}",
                colours,
                ["rgb(8, 120, 79)", "rgb(204, 31, 45)"] if theme == "light" else ["rgb(67, 210, 150)", "rgb(255, 106, 106)"],
            )
    resize(page)


def test_calls(page, same, _):
    """Braces over the lanes: each call with its reply, from its first own event to its last."""
    page.open("example=plain_path")
    same("calls of a trace", calls_of(page), ["P put 1, lines 2 to 9", "C take: 1, lines 10 to 19"])
    same(
        "their parts",
        page.browser.run("return [...document.querySelectorAll('#picture .part')].map(it => it.textContent)"),
        ["k mod 3 = 0", "word", "n = 1", "n mod 3 = 1", "word", "k = 1"],
    )
    same(
        "the call of a bar",
        page.browser.run("return document.querySelector('#picture [data-line=\"4\"]').getAttribute('aria-label')"),
        "P writes 1 to c0.0, lines 4 to 5, of put 1",
    )
    page.browser.press("left")
    same("a call under way", calls_of(page), ["P put 1, lines 2 to 9", "C take, from line 10, under way"])
    page.browser.press("home", *["right"] * 8)
    same("one that has ended", calls_of(page), ["P put 1, lines 2 to 9"])
    page.browser.press("left")
    same("and one that has not", calls_of(page), ["P put, from line 2, under way"])
    for name, calls in [
        ("full_at_capacity_one", ["P put 1, letters 1 to 8", "P put: full, letters 9 to 10"]),
        ("second_scan_finds_the_item", None),
        ("batch_of_three", None),
        ("cut_before_closed", None),
    ]:
        page.open(f"script={name}")
        got = calls_of(page)
        if calls:
            same(f"calls of {name}", got[:2], calls)
        same(f"{name} has braces", len(got) > 1, True)
    page.open("example=plain_path")
    page.write(page.text().replace("C got s1 1", "C got s1 0"))
    same(
        "calls before a fault of the bits",
        [page.words(), calls_of(page)],
        ["fault: line 13: not permitted", ["P put 1, lines 2 to 9", "C take, from line 10, under way"]],
    )
    ends = page.browser.run(
        "const of = it => Math.round(document.querySelector(it).getBoundingClientRect().right); return [of('#picture [data-call=\"10\"] path'), of('#picture .faultline')]"
    )
    same("its brace stops there", abs(ends[0] - ends[1]) <= 2, True)
    page.write(
        "shape 1 3 64\nP read r0\nP got r0 1\n"
        + "".join(f"P write c0.{i} 1\nP wrote c0.{i}\n" for i in range(64))
        + "P write s1 1\nP wrote s1\nP write s0 0\nP wrote s0\n"
    )
    same("the largest item", calls_of(page), [f"P put {2**64 - 1}, lines 2 to 135"])
    page.open("example=count_before_cell")
    same("calls before the break", calls_of(page), ["P put, from line 2, under way"])
    page.open("example=new_old_inversion")
    same("no calls of bits alone", page.count("#picture [data-call]"), 0)
    page.write("shape 1 3 1\n" + "P read r0\nP got r0 1\n" * 301)
    same("too many events for braces", page.count("#picture [data-call]"), 0)


def test_waves(page, same, _):
    """More than five waveforms are drawn, or some are left out, only if the title says so."""
    title = "return document.querySelector('#picture .title').textContent"
    for name, bits, drawn, said in [("plain_path", "some", 5, ""), ("batch_count_comes_back", "all", 9, "waveforms of all 9 bits")]:
        page.open(f"example={name}&bits={bits}")
        rows = page.browser.run("return new Set([...document.querySelectorAll('#picture .wavename')].map(it => it.textContent)).size")
        same(f"waveforms of {name}", [rows, "waveforms" in page.browser.run(title), said in page.browser.run(title)], [drawn, bool(said), True])
    page.open("")
    page.write("shape 1 8 1\n" + "".join(f"P write s{i} 1\nP wrote s{i}\n" for i in range(8)))
    same("five of eight", [page.count("#picture .wavename"), "waveforms of 5 of 8 bits" in page.browser.run(title)], [5, True])


def test_numbers(page, same, _):
    lines = "return [...document.querySelectorAll('#picture .line')].map(it => Number(it.textContent)).sort((a, b) => a - b)"
    page.open("example=plain_path")
    same("a trace counts lines", page.browser.run(lines), list(range(2, 20)))
    same("to its last", words(page, "place"), "line 19 / 19")
    for name, last in [("plain_path", 18), ("idle_letters", 34)]:
        page.open(f"script={name}")
        same(f"{name} counts letters", page.browser.run(lines), list(range(1, last + 1)))
    same("a letter of no event", [words(page, "place"), words(page, "step")], ["letter 42 / 42", "letter 42: no event, its side is done"])
    page.write(json.dumps({**json.loads(page.text()), "schedule": "C2P14C22"}))
    same("letters without an event", page.browser.run(lines), [*range(1, 13), *range(17, 39)])
    same(
        "its replies",
        page.browser.run("return [...document.querySelectorAll('#moments span:first-child')].map(it => it.textContent)"),
        ["letter 7", "letter 28", "letter 38"],
    )


KEPT = """const steps = arguments[0], slider = document.getElementById("shown"), frame = document.getElementById("picture"), wrong = [];
const drawn = () => frame.innerHTML.replace(/ tabindex="[-0-9]*"/g, "");
for (const step of steps) {
  slider.value = step < 0 ? Number(slider.max) + 1 + step : step;
  slider.dispatchEvent(new Event("input"));
  const kept = drawn();
  frame.replaceChildren();
  dispatchEvent(new Event("resize"));
  if (kept !== drawn()) wrong.push(step);
}
return wrong;"""


def test_kept(page, same, _):
    """A picture updated from the previous one equals one drawn anew; and the focused element keeps the focus."""
    for asked in (
        "example=stale_item&bits=all",
        "script=five_items",
        "script=batch_of_three",
        "example=modulus_one_too_small",
        "calls=full_with_room",
        "calls=batch",
    ):
        page.open(asked)
        same(f"steps of {asked}", page.browser.run(KEPT, [-1, 0, 1, 2, 5, 4, 3, 6, 7, 8, 0, -2, -1]), [])
    page.open("example=plain_path")
    page.write("shape 1 3 1\n" + BLOCK * 400 + "C read s0\nC got s0 1\n" + BLOCK * 400)
    same("steps of a long trace", page.browser.run(KEPT, [-1, 0, 500, 501, 502, 503, 640, 1601, 1602, 1603, 1700, 1, -1]), [])
    for asked in ("example=plain_path", "script=plain_path", "calls=plain", "example=stale_item"):
        page.browser.run("location.hash = arguments[0]", asked)
        page.browser.until(asked, "return document.getElementById('example').value.endsWith(arguments[0])", asked.split("=")[1])
        same(f"another text, {asked}", page.browser.run(KEPT, [-1]), [])
    page.open("script=five_items")
    page.browser.run("document.querySelectorAll('#moments button')[2].focus()")
    page.browser.press("enter")
    same(
        "a reply keeps the focus",
        page.browser.run(
            "return document.activeElement === document.querySelector('#moments [aria-current]') && document.activeElement === document.querySelectorAll('#moments button')[2]"
        ),
        True,
    )


STEP = """const times = [];
for (let i = 0; i < 15; i++) {
  const before = performance.now();
  document.getElementById(i % 3 === 2 ? "on" : "back").click();
  document.body.getBoundingClientRect();
  times.push(performance.now() - before);
}
return times.sort((a, b) => a - b);"""


def test_speed(page, same, _):
    """A step of 10,000 events, with its layout; other work on the machine is not the page's fault, so the best third counts."""
    page.open("example=plain_path")
    page.write("shape 1 3 1\n" + BLOCK * 2500)
    trace = page.browser.run(STEP)
    page.open("script=plain_path")
    page.write(json.dumps({**json.loads(page.text()), "items": [1] * 999, "takes": 999, "schedule": "P5000C5000"}))
    play = page.browser.run(STEP)
    print(f"a step of 10,000 events: {trace[5]:.0f} ms, of a play {play[5]:.0f} ms")
    same("10,000 events step in 100 ms", [trace[5] < 100, play[5] < 100], [True, True])


TESTS = [test_own, test_refusals, test_reach, test_reasons, test_calls, test_collisions, test_waves, test_numbers, test_kept, test_speed]
