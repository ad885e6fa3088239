"""Tests of the page as it is shipped, for page/test: its one file, its size, and the layout of its sources. Each takes the page, a `same` that
compares and a folder."""
import os

import pack
from browser import PAGE, TOP, Page, example, text_of


def test_shipped(_, same, folder):
    """The page is in the repository, README's first screen links to it, and a difference from its sources is reported with its line."""
    first = text_of(os.path.join(TOP, "README.md")).splitlines()[:24]
    same("README's first screen leads to the page", any("](page/lamport_ring.html)" in line for line in first), True)
    same("and has its pictures", sum("](docs/pictures/" in line for line in text_of(os.path.join(TOP, "README.md")).splitlines()) >= 3, True)
    page = text_of(os.path.join(PAGE, pack.SHIPPED))
    at, name, pack.SHIPPED = page.index("Histories of safe bits"), pack.SHIPPED, os.path.join(folder, "other.html")
    with open(pack.SHIPPED, "w", encoding="utf-8") as file:
        file.write(page.replace("Histories of safe bits", "histories of safe bits", 1))
    wrongs, pack.SHIPPED = pack.wrongs(), name
    line = page[:at].count("\n") + 1
    same(
        "the place where it differs",
        [it.split("sources, ")[1] for it in wrongs],
        [f"from its line {line} on, byte {len(page[:at].encode())}: run page/pack.py"],
    )


def test_one_file(served, same, _):
    page = Page(served.browser, "file://" + os.path.join(PAGE, "lamport_ring.html"))
    page.open("example=stale_read_after_inversion")
    same("the page in one file", page.title(), "fault: line 9: not permitted")
    page.browser.press("left")
    same("its steps", [page.title(), page.hash()], ["lawful", "#example=stale_read_after_inversion&shown=7"])
    page.open("script=five_items&theme=dark")
    same("its scripts", page.report(), example("five_items.report"))
    page.open("example=stale_item")
    reason = page.browser.run("return document.getElementById('due').textContent")
    same("its two verdicts", [page.verdicts(), reason], [["bits: lawful", "ring: line 4 is not of the program"], "in line 4 was due: P write c0.0 0 or 1"])
    page.click("next")
    page.browser.until("its next lesson", "return document.getElementById('of').textContent === 'closed_loses_an_item'")
    page.write("shape 1 3 1\nP write s0 0\n")
    page.open(page.hash()[1:])
    same("its link with an own text", page.text(), "shape 1 3 1\nP write s0 0\n")
    page.open("calls=empty_while_inside")
    same("its recorded calls", [page.words(), page.count("#picture .bar.against")], ["calls: fault: line 5: empty, but item 12 was inside since line 3", 1])
    page.write("queue 8\nP put 12\nC take\nP stored\nC empty\n")
    same("its calls, edited", page.words(), "calls: lawful")
    page.browser.back()
    page.browser.until("Back, in it", "return document.getElementById('example').value === 'calls empty_while_inside'")


MOST_LINES, MOST_LETTERS, MOST_SIZE = 300, 140, 600_000
LAYERS = ["lab", "core", "text", "draw", "model", "panes", "."]  # of page/src: a folder imports from those before it, and from itself


def layer(path):
    return LAYERS.index(os.path.dirname(path) or ".")


def test_layout(_, same, __):
    """No script or style sheet is long, none imports from a folder above its own layer, and the page is small."""
    for folder, _, files in os.walk(pack.SOURCES):
        for name in sorted(files) if not folder.startswith(pack.MADE) else []:
            path = os.path.relpath(os.path.join(folder, name), pack.SOURCES)
            lines = [line for line in text_of(os.path.join(folder, name)).splitlines() if "Content-Security-Policy" not in line]
            same(f"{path}: its lines", [len(lines) <= MOST_LINES, max(map(len, lines)) <= MOST_LETTERS], [True, True])
            imported = [other for _, other in pack.imports_of(path, "\n".join(lines) + "\n")] if name.endswith(".js") else []
            same(f"{path}: what it imports from above", [other for other in imported if layer(other) > layer(path)], [])
    same("the size of the page", os.path.getsize(os.path.join(PAGE, pack.SHIPPED)) <= MOST_SIZE, True)


TESTS = [test_shipped, test_one_file, test_layout]
