"""Tests of recordings of any length, and of refused texts, for page/test: the cursor is in view, nothing is cut, the page stays responsive, nothing of an
earlier text is left. Each takes the page, a `same` that compares and a folder."""
import os
import time

from browser import slack
from test_authors import lossy
from test_use import resize, seen, words

# Whether the cursor's line is visible within the picture's area.
IN_VIEW = """const it = document.querySelector("#picture .now")?.getBoundingClientRect(), room = document.querySelector("main").getBoundingClientRect();
return it !== undefined && it.top >= room.top && it.bottom <= Math.min(room.bottom, innerHeight) && it.left >= room.left && it.right <= room.right;"""
# Measures the longest time without a turn of the event loop.
WATCH = """globalThis.longest = 0;
let last = performance.now();
const turn = () => {
  const now = performance.now();
  globalThis.longest = Math.max(globalThis.longest, now - last);
  last = now;
  globalThis.watching = setTimeout(turn, 0);
};
turn();"""
# Whether a file of this name is shown with this verdict.
OPENED = """const [bits, note] = ["bits", "note"].map(id => document.getElementById(id).textContent);
return note.startsWith(arguments[0]) && bits === arguments[1] && document.getElementById("stop").hidden;"""
LONGEST = "clearTimeout(globalThis.watching); return globalThis.longest"
FROZEN = 200  # the maximum of milliseconds without a turn (times slack)


def lawful(puts):
    """A recording of `puts` puts and takes, one after the other."""
    return "queue 4\n" + "".join(f"P put {at}\nP stored\nC take\nC item {at}\n" for at in range(puts))


def give(page, path):
    page.browser.upload("file", path)


def opened(page, folder, name, text, verdict, seconds=60):
    """Opens a file with this text and waits for its verdict; returns how long that took."""
    path = os.path.join(folder, name)
    with open(path, "w", encoding="ascii") as file:
        file.write(text)
    began = time.monotonic()
    give(page, path)
    while not page.browser.run(OPENED, name, verdict) and time.monotonic() - began < seconds:
        time.sleep(0.02)
    return time.monotonic() - began


def test_cursor(page, same, folder):
    """After each key the cursor is in view, in recordings of 600, 601, 10^5 and 10^6 lines."""
    page.open("calls=plain")
    for wide, high in ((1366, 768), (390, 844)):
        resize(page, wide, high)
        for lines in (600, 601, 10**5, 10**6) if wide > 1000 else (601, 10**5):
            text = "\n".join(lawful(lines // 4 + 1).split("\n")[:lines]) + "\n"
            opened(page, folder, f"of_{lines}.calls", text, "calls: lawful")
            same(f"{lines} lines at {wide}", [words(page, "place").split(" / ")[1], page.browser.run(IN_VIEW)], [str(lines), True])
            for key in ("left", "home", "right", "right", "n", "n", "b", "end", "left", "b"):
                page.browser.press(key)
                same(f"{lines} lines at {wide}: {key}, to {words(page, 'place')}", page.browser.run(IN_VIEW), True)
            page.browser.run("const it = document.getElementById('shown'); it.value = arguments[0]; it.dispatchEvent(new Event('input'))", lines // 2)
            same(f"{lines} lines at {wide}: in the middle", page.browser.run(IN_VIEW), True)
            if lines > 600:
                later = page.browser.run(
                    "return [document.querySelectorAll('#picture .cursor').length, document.querySelectorAll('#picture .later').length > 0]"
                )
                same(f"{lines} lines at {wide}: what comes after the cursor looks different", later, [1, True])
    resize(page)


def test_numbers(page, same, _):
    """No item's number is cut: without room for all the words it is shown alone, and of many items the last ones are counted."""
    items = [18446744073709551615 - at for at in range(3)]
    page.open("calls=plain")
    page.write("queue 8\n" + "".join(f"P put {it}\nP stored\nC take\nC item {it}\n" for it in items))
    bars = page.browser.run("return [...document.querySelectorAll('#picture .asks, #picture .says')].map(it => it.textContent)")
    same("each item is shown whole", sorted({it.split(" ")[-1] for it in bars if "18446744" in it}), sorted(map(str, items)))
    batch = " ".join(str(it) for it in range(100000, 100020))
    page.write(f"queue 32\nP put {batch}\nP stored\nC take 20\nC item {batch}\n")
    bars = page.browser.run("return [...document.querySelectorAll('#picture .asks, #picture .says')].map(it => it.textContent)")
    numbers = [word for it in bars for word in it.split(" ") if word.strip("+").isdigit() and not word.startswith("+") and len(word) > 2]
    same(
        "of a batch whole numbers, and the number of the rest", [all(100000 <= int(it) < 100020 for it in numbers), any("+" in it for it in bars)], [True, True]
    )


def test_strip(page, same, _):
    """The strip does not move while one steps, has keys, and its label is below it."""
    page.open("calls=plain")
    page.write(lossy(3000))
    place = "const {top, left, height} = document.querySelector('#strip svg').getBoundingClientRect(); return [top, left, height]"
    before = page.browser.run(place)
    for key in ("home", "right", "end", "x", "a", "n", "b"):
        page.browser.press(key)
        same(f"the strip after {key}", page.browser.run(place), before)
    page.browser.press("home")
    page.browser.run("document.querySelector('#strip svg').focus()")
    lines = int(words(page, "place").split(" / ")[1])
    page.browser.press("right")
    at = int(words(page, "place").split()[1])
    same("a key moves along the run", 1 < at <= 2 + lines // 50, True)
    page.browser.press("end")
    same("to its end", words(page, "place"), f"line {lines} / {lines}")
    page.browser.press("+")
    same("less of it", words(page, "strip").startswith("lines 1 "), False)
    for _ in range(8):
        page.browser.press("-")
    same("and all", words(page, "strip").startswith(f"lines 1 to {lines} of {lines}"), True)
    hides = """const [words, svg] = ["#strip span", "#strip svg"].map(it => document.querySelector(it).getBoundingClientRect());
return words.top >= svg.bottom - 1;"""
    same("its label hides nothing", page.browser.run(hides), True)
    same(
        "now, and at most",
        [page.browser.run("return [...document.querySelectorAll('#inside b')].map(it => it.textContent)"), "most inside" in words(page, "summary")],
        [["inside now", "queue"], True],
    )


def test_first_screen_at_200(page, same, _):
    """At 200 % zoom the picture of a recording is on the first screen."""
    resize(page, 683, 384, 2)
    page.open("calls=empty_while_inside")
    shown = """const it = document.querySelector("#picture svg").getBoundingClientRect(), bottom = document.getElementById("steps").getBoundingClientRect().top;
return Math.min(it.bottom, bottom) - it.top;"""
    same("visible part of the picture", page.browser.run(shown) > 100, True)
    resize(page)


def test_refused(page, same, folder):
    """A refused text clears the verdict, and the page says what is refused and why."""
    page.open("calls=plain")
    cases = {}
    for name, data in {
        "large.trace": b"shape 1 3 1\n" + b"P read r0\n" * 450000,
        "utf16.calls": "queue 8\r\nP put 1\r\n".encode("utf-16"),
        "deep.json": b'{"a":' * 1 + b"[" * 200000 + b"]" * 200000 + b"}",
        "two.json": b'{"process":0,"type":"invoke","f":"enqueue","value":1}\n{"process":1,"type":"invoke","f":"enqueue","value":2}\n',
        "log.json": b'[\n  {"process": 0, "type": "invoke", "f": "enqueue", "value": 1},\n  {"process": 0, "type": "ok", "f": "enqueue", "value": 1}\n]\n',
    }.items():
        cases[name] = os.path.join(folder, name)
        with open(cases[name], "wb") as file:
            file.write(data)
    shown = "return ['bits', 'offers', 'picture'].map(id => document.getElementById(id).textContent)"

    def open_file(name):
        page.open("calls=plain")
        give(page, cases[name])
        page.browser.until(
            f"{name} is answered",
            "return !document.getElementById('bits').textContent.includes('calls: lawful') || document.getElementById('note').textContent !== ''",
        )
        time.sleep(0.2)
        page.settle()
        return page.browser.run(shown)

    bits, _, picture = open_file("large.trace")
    same("too large", [bits.startswith("refused: large.trace has 4.5 MB: of a file with a trace this page opens at most 4.0 MB"), picture], [True, ""])
    same("no green verdict is left", page.browser.run("return document.getElementById('bits').className"), "refused")
    bits, offers, _ = open_file("utf16.calls")
    same("UTF-16", ["in UTF-16" in bits and "Out-File -Encoding utf8" in bits, offers], [True, "As UTF-8 this is recorded calls. Open it so"])
    page.browser.click("#offers button")
    same("and is opened", [words(page, "bits"), page.text()], ["calls: lawful", "queue 8\nP put 1\n"])
    bits, _, _ = open_file("deep.json")
    same("deep JSON", bits.startswith("refused: script "), True)
    bits, offers, _ = open_file("two.json")
    same("two producers", ["refused" in bits, "one producer" in offers], [True, True])
    bits, offers, _ = open_file("log.json")
    same("a log as a list", [bits, page.text()], ["calls: lawful", "queue\nP put 1\nP stored\n"])
    page.open("script=nothing")
    page.write('[\n{"process":0,"type":"invoke","f":"enqueue","value":1}\n]\n')
    same("a log instead of a script", "Open its calls" in words(page, "offers"), True)


def test_long_texts(page, same, folder):
    """The page stays responsive: a recording of 50 MB, one of 4.2 million lines, and a script of 900,000 items are read by a worker, with a
    message, and can be stopped."""
    page.open("calls=plain", emptied=True)
    bound = FROZEN * slack()
    big = "queue 64\n" + "".join(f"P put {10**18 + at}\nP stored\nC take\nC item {10**18 + at}\n" for at in range(740000))
    script = (
        '{"capacity":1,"modulus":3,"width":1,"items":[' + ",".join("1" for _ in range(900000)) + '],"takes":1,"close":false,"schedule":"P8C10","oracle":""}'
    )
    for name, text, verdict in (
        ("fifty.calls", big, "calls: lawful"),
        ("lines.calls", lawful(1050000), "calls: lawful"),
        ("items.json", script, "refused: script has too many items"),
    ):
        page.browser.run(WATCH)
        took = opened(page, folder, name, text, verdict)
        longest = page.browser.run(LONGEST)
        print(f"{name}, {len(text) / 1e6:.0f} MB: {took:.1f} s, at most {longest:.0f} ms without a turn")
        same(f"{name}: its verdict", words(page, "bits"), verdict)
        same(f"{name}: it stayed responsive", longest < bound, True)
        page.browser.run(WATCH)
        page.browser.press("left", "left", "right")
        same(f"{name}: also while stepping", page.browser.run(LONGEST) < bound, True)
    page.open("calls=plain")
    give(page, os.path.join(folder, "lines.calls"))
    read = "return document.getElementById('bits').textContent.startsWith('auditing ') && document.getElementById('stop').checkVisibility()"
    page.browser.until("the page says that it is being read", read)
    page.browser.click("#stop")
    same("stopped", [words(page, "bits"), seen(page, "stop")], ["refused: stopped before it was read to its end", False])
    page.open("calls=plain")
    same("and the page still works", words(page, "bits"), "calls: lawful")


TESTS = [test_cursor, test_numbers, test_strip, test_first_screen_at_200, test_refused, test_long_texts]
