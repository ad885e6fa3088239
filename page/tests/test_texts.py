"""Tests of texts from elsewhere, for page/test: of another kind, damaged, pasted, too long for a link, logs of other tests. Each takes the page, a
`same` that compares and a folder."""
import contextlib
import glob
import importlib.machinery
import importlib.util
import os

from browser import TOP
from test_authors import audited, lossy, place, press
from test_calls import give
from test_use import words

PASTED = 1000  # milliseconds that a paste of 5 MB may take, the best of several tries
CTRL = "\ue009"


# Texts in the wrong mode, or damaged: the mode, the text, what is offered, then the mode, the verdict and the text after the button is pressed.
CALLS = "queue 2\nP put 1\nP stored\nC take\nC item 1\n"
OFFERED = [
    ("trace", CALLS, "This looks like recorded calls.", "calls", "calls: lawful", CALLS),
    ("trace", CALLS.removeprefix("queue 2\n"), "This looks like recorded calls.", "calls", "refused: calls line 1 is not a line of the format", None),
    ("trace", "# a run\n\n" + CALLS, "This looks like recorded calls.", "calls", "refused: calls line 1 is not a line of the format", None),
    ("script", CALLS, "This looks like recorded calls.", "calls", "calls: lawful", CALLS),
    ("calls", "shape 1 3 1\nP write s0 0\n", "This looks like a trace.", "trace", "bits: lawful", None),
    ("calls", "P write s0 0\nP wrote s0\n", "This looks like a trace.", "trace", "refused: trace line 1 is not a line of the format", None),
    ("calls", '{"capacity":1}', "This looks like a script.", "script", "refused: field modulus is missing", None),
    (
        "calls",
        CALLS.removeprefix("queue 2\n"),
        'This recording has no first line that describes its queue: "queue" is put there',
        "calls",
        "calls: lawful",
        "queue\n" + CALLS.removeprefix("queue 2\n"),
    ),
    ("calls", "P put 1\nP stored\nP put 2\nP full\n", '"queue 1" is put there', "calls", "calls: lawful", "queue 1\nP put 1\nP stored\nP put 2\nP full\n"),
    ("calls", "P put 1\nP full\nP put 2\nP stored\n", '"queue 0 1" is put there', "calls", "calls: lawful", "queue 0 1\nP put 1\nP full\nP put 2\nP stored\n"),
    (
        "calls",
        "# mine\nqueue 2\n\nP put 1\n// and\nP stored\n",
        "This recording has 3 lines that are comments, or empty.",
        "calls",
        "calls: lawful",
        "queue 2\nP put 1\nP stored\n",
    ),
    (
        "calls",
        "\ufeffqueue 2\nP put 1",
        "This recording begins with a byte order mark; it has no line feed at its end.",
        "calls",
        "calls: lawful",
        "queue 2\nP put 1\n",
    ),
    ("calls", "queue 2\n P put 1\nP stored \n", "This recording has spaces at the ends of lines.", "calls", "calls: lawful", "queue 2\nP put 1\nP stored\n"),
]


def test_kinds(page, same, folder):
    """The kind of a text is recognized by any of its lines; one of another kind is offered to its mode, and a repair is offered if there is one."""
    starts = {"trace": "example=plain_path", "script": "script=plain_path", "calls": "calls=plain"}
    for mode, text, said, to, verdict, then in OFFERED:
        page.open(starts[mode])
        page.write(text)
        same(f"{mode} {text!r}: what is offered", said in words(page, "offers"), True)
        page.browser.run("document.querySelector('#offers button').click()")
        same(
            f"{mode} {text!r}: after the button",
            [
                page.browser.run("return document.querySelector('input[name=mode]:checked').value"),
                page.browser.run("return document.getElementById('bits').textContent"),
                page.text(),
            ],
            [to, verdict, then or text.removeprefix("\ufeff")],
        )
    page.open("calls=plain")
    for text in ("queue 2\nP putt 1\n", ""):
        page.write(text)
        same(f"{text!r}: nothing is offered", words(page, "offers"), "")
    # files: their kind is recognized by any line, and none of these is read as a trace
    for name, text, verdict in [
        ("headless.txt", CALLS.removeprefix("queue 2\n"), "refused: calls line 1 is not a line of the format"),
        ("crlf.txt", "# x\r\n" + CALLS.replace("\n", "\r\n"), "refused: calls line 1 is not a line of the format"),
        ("bom.txt", "\ufeff" + CALLS, "refused: calls line 1 is not a line of the format"),
    ]:
        with open(os.path.join(folder, name), "w", encoding="utf-8", newline="") as file:
            file.write(text)
        page.open("example=plain_path")
        give(page, os.path.join(folder, name))
        same(
            f"{name} is opened as calls",
            [page.browser.run("return document.querySelector('input[name=mode]:checked').value"), words(page, "bits")],
            ["calls", verdict],
        )
        page.browser.run("document.querySelector('#offers button').click()")
        same(f"{name} is mended", [words(page, "bits"), page.text().split("\n", 1)[1]], ["calls: lawful", CALLS.split("\n", 1)[1]])


def pasted(page, text):
    """Pastes a text with keys over everything in the editor; returns how many milliseconds that took, including the next frame."""

    def with_control(key):
        page.browser.press(f"ctrl+{key}")

    page.browser.run(
        """const [text] = arguments;
        document.activeElement.blur();
        document.addEventListener("copy", event => {
          event.clipboardData.setData("text/plain", text);
          event.preventDefault();
        }, {once: true})""",
        text,
    )
    with_control("c")
    page.browser.run(
        """const it = document.getElementById("text");
        it.focus();
        it.select();
        window.took = null;
        it.addEventListener("keydown", event => {
          const began = performance.now();
          if (event.key === "v") requestAnimationFrame(() => setTimeout(() => window.took = performance.now() - began));
        })"""
    )
    with_control("v")
    page.browser.until("a paste", "return window.took !== null")
    return page.browser.run("return window.took")


BIG = "".join(f"P put {i}\nC take\nP stored\nC item {i}\n" for i in range(125000))
PASTES = [  # the link, the text, the verdict, what is offered
    ("calls=plain", "queue 8\n" + BIG, "calls: lawful", ""),
    (
        "example=plain_path",
        "shape 1 3 1\n" + "C read s0\nC got s0 1\n" * 240000,
        "refused: trace has more than the 10000 events that this page has room for",
        "",
    ),
    (
        "script=plain_path",
        '{"capacity":1,"modulus":3,"width":1,"items":[1],"takes":1,"close":false,"oracle":"","schedule":"' + "PC" * 2500000 + '"}',
        "refused: script has more than this page has room for: 10000 events, 1000 runs of letters, 10000 answers",
        "",
    ),
    ("script=plain_path", '{"items":[' + "1," * 2500000 + "]}", "refused: script is not JSON", ""),
    ("example=plain_path", "queue 8\n" + BIG, "refused: trace line 1 is not a line of the format", "This looks like recorded calls."),
]


def test_paste(page, same, _):
    """5 MB are pasted in under a second, in each mode; the editor shows some of the lines."""
    for asked, text, verdict, offered in PASTES:
        took = []
        for _ in range(3):
            page.open(asked)
            took.append(pasted(page, text))
        what = f"{len(text) / 1e6:.1f} MB pasted at {asked}"
        print(f"{what}: {min(took):.0f} ms")
        same(f"{what}: the verdict", words(page, "bits"), verdict)
        same(f"{what}: what is offered", words(page, "offers").startswith(offered) if offered else words(page, "offers"), True if offered else "")
        same(f"{what}: the editor", [len(page.text()) <= 40000, page.browser.run("return document.getElementById('text').readOnly")], [True, True])
        same(f"{what}: under a second", min(took) < PASTED, True)
    page.browser.run("document.querySelector('#offers button').click()")
    same("it is carried over", [words(page, "bits"), words(page, "place")], ["calls: lawful", "line 500001 / 500001"])
    page.open("calls=plain")
    page.write("queue 1\n")
    text = "queue 8\n" + BIG[:100000].rsplit("\n", 1)[0] + "\n"
    print(f"0.1 MB pasted, to be edited: {pasted(page, text):.0f} ms")
    same(
        "a text that is edited",
        [page.text(), words(page, "bits"), page.browser.run("return document.getElementById('text').readOnly")],
        [text, "calls: lawful", False],
    )
    page.browser.back()
    page.browser.until("Back brings what was there", "return document.getElementById('text').value === arguments[0]", "queue 1\n")


@contextlib.contextmanager
def new_tab(page):
    """A tab with no history: from a full one Chromium prunes entries that no user action led to."""
    before = page.browser.window()
    page.browser.open_tab()
    yield
    page.browser.shut()
    page.browser.use(before)


def test_kept(page, same, folder):
    """A text that is too long for a link comes back by Back and Forward while the page is open; after a reload the page says that it is gone."""
    with new_tab(page):
        try_kept(page, same, folder)


def try_kept(page, same, folder):
    for name, count in [("first.calls", 100000), ("second.calls", 120000)]:
        with open(os.path.join(folder, name), "w", encoding="ascii") as file:
            file.write(lossy(count))
    page.open("calls=plain")
    for name in ("first.calls", "second.calls"):
        give(page, os.path.join(folder, name))
    lines = {name: str(lossy(count).count("\n")) for name, count in [("first.calls", 100000), ("second.calls", 120000)]}
    press(page, "left")
    same("a kept text has a link of the page alone", page.hash().split("=")[0], "#kept")
    step = place(page)
    for way, ends in [("back", lines["first.calls"]), ("back", "9"), ("forward", lines["first.calls"]), ("forward", lines["second.calls"])]:
        getattr(page.browser, way)()
        page.browser.until(f"{way} to {ends} lines", "return document.getElementById('place').textContent.endsWith(` / ${arguments[0]}`)", ends)
    same("at its line", place(page), step)
    page.click("tofault")  # a page that was used asks before it is left
    asks = "const it = new Event('beforeunload', {cancelable: true}); dispatchEvent(it); return it.defaultPrevented"
    same("it asks before it is left", page.browser.run(asks), True)
    page.browser.refresh()
    page.browser.until("the page says that it is gone", "return document.getElementById('note')?.textContent.startsWith('That text was too long for a link')")
    page.write("queue 1\n")
    page.click("ask")
    same("a text that a link contains is left at once", page.browser.run(asks), False)


def converter():
    """record/convert, as a module."""
    loader = importlib.machinery.SourceFileLoader("convert", os.path.join(TOP, "record", "convert"))
    module = importlib.util.module_from_spec(importlib.util.spec_from_loader("convert", loader))
    loader.exec_module(module)
    return module


LOGS = """const {logRecording} = await import(new URL("text/logs.js", location)); return args[0].map(it => { const {text, refused} = logRecording(it); return text ?? refused; });"""


def test_logs(page, same, folder):
    """A log of another tool is read as record/convert reads it, from a file and from the editor."""
    convert, samples = converter(), []
    for path in sorted(glob.glob(os.path.join(TOP, "record", "tests", "logs", "*"))):
        with open(path, encoding="utf-8") as file:
            samples.append((os.path.basename(path), file.read()))
    page.open("calls=plain")
    same("there are samples", len(samples) > 10, True)
    for (name, log), got in zip(samples, page.browser.wait(LOGS, [log for _, log in samples])):
        try:
            want = convert.recording_of(log)
        except convert.Refused as why:
            want = str(why)
        same(f"the log {name}", got, want)
    for name in ("jepsen.edn", "jepsen.jsonl"):
        page.open("example=plain_path")
        give(page, os.path.join(TOP, "record", "tests", "logs", name))
        same(
            f"{name} is opened",
            [words(page, "bits"), words(page, "note"), page.browser.run("return document.querySelector('input[name=mode]:checked').value")],
            [f"calls: {audited(page.text()).splitlines()[0]}", f"{name}, the calls of a log", "calls"],
        )
    logs = dict(samples)
    page.write(logs["jepsen.edn"])
    same("one in the editor is offered", words(page, "offers"), "This looks like a log of another test. Open its calls")
    page.browser.run("document.querySelector('#offers button').click()")
    same("and opened", page.text(), convert.recording_of(logs["jepsen.edn"]))
    page.write(logs["two_producers.edn"])
    same(
        "one of two producers is not",
        [words(page, "offers"), page.count("#offers button")],
        ["This looks like a log of another test, but line 3 has process 2, and process 0 puts too: a recording has one producer and one consumer. ", 0],
    )


TESTS = [test_kinds, test_paste, test_kept, test_logs]
