"""Tests of two recordings shown one under the other, for page/test. Each takes the page, a `same` that compares and a folder."""
import os
import time
import urllib.parse

from browser import slack
from test_authors import LOST, MOST_MB, STEPPED, STEPS, STEP_KEYS, audited, lossy, megabytes, place, press, shown, until_words
from test_calls import flags, give
from test_paper import printed
from test_sizes import KEPT_NAMES, PHONE
from test_use import media, resize, seen, words

OTHER = LOST.replace("C item 3", "C item 2").replace("C empty", "C item 3")  # which loses none
PARTS = ("upper", "underhead", "under")


def head(page, id_):
    """A heading: the name, the verdict, the number of lines and whatever else it has."""
    return page.browser.run("return [...document.getElementById(arguments[0]).querySelectorAll('strong, span')].map(it => it.textContent)", id_)


def verdict(text):
    return audited(text).splitlines()[0]


def under(page):
    return page.browser.run("return document.getElementById('under').innerHTML")


def flags_under(page):
    return page.browser.run("return [...document.querySelectorAll('#under .flagwords')].map(it => it.textContent)")


def test_compare(page, same, _):
    """The kept recording stays at its fault under each one shown next, and a step moves only the upper one."""
    page.open(shown(LOST))
    same("none is kept", [seen(page, it) for it in PARTS], [False] * 3)
    flagged = flags(page)
    page.click("compare")
    same("both are seen", [seen(page, it) for it in PARTS], [True] * 3)
    same("the kept one", [head(page, "underhead"), flags_under(page)], [["recording", verdict(LOST), "15 lines", "kept"], flagged])
    same("the same one is marked as such", [head(page, "upper")[:3], "open, paste" in head(page, "upper")[3]], [["recording", verdict(LOST), "15 lines"], True])
    page.write(OTHER)
    same(
        "another under it",
        [head(page, "upper"), head(page, "underhead")[1], words(page, "bits")],
        [["recording", verdict(OTHER), "15 lines"], verdict(LOST), f"calls: {verdict(OTHER)}"],
    )
    same("each has its own flags", [flags(page), flags_under(page)], [[], flagged])
    same("it is no part of the link", page.hash(), "#" + urllib.parse.urlencode({"recording": OTHER}))
    before = under(page)
    press(page, "left", "left")
    same("a step", [place(page), under(page) == before, head(page, "upper")[1]], [13, True, verdict(OTHER)])
    page.click("swap")
    same(
        "they swap places",
        [page.text(), head(page, "upper")[1], head(page, "underhead")[1], flags(page), place(page)],
        [LOST, verdict(LOST), verdict(OTHER), flagged, 11],
    )
    same(
        "a lawful one is at its end",
        page.browser.run("return document.querySelectorAll('#under [data-line]').length"),
        OTHER.count("P put") + OTHER.count("take"),
    )
    page.write("queue\nP put 1\n\n")
    same(
        "of a text that is refused",
        [head(page, "upper")[1].startswith("refused: "), seen(page, "under"), page.browser.run("return document.getElementById('swap').disabled")],
        [True, True, True],
    )
    page.write(LOST)
    page.click("shrink")
    until_words(page, "shrunk", "lines: fault")
    page.browser.run("[...document.querySelectorAll('#shrunk button')].find(it => it.textContent === 'Show').click()")
    same("a small one", [head(page, "upper")[1], head(page, "underhead")[1]], [verdict(page.text()), verdict(OTHER)])
    page.click("leave")
    same("comparing is ended", [[seen(page, it) for it in PARTS], under(page), page.count("#picture svg")], [[False] * 3, "", 1])


def test_views(page, same, folder):
    """The kept one is not shown in other modes, in a lecture or in a saved picture; on paper and on a phone it is."""
    page.open("calls=empty_while_inside")
    page.click("compare")
    page.browser.run("document.querySelector('input[name=mode][value=trace]').click()")
    page.browser.until("a trace", "return document.body.classList.contains('trace') && document.querySelector('#picture svg')")
    same("of a trace", [seen(page, it) for it in PARTS], [False] * 3)
    page.browser.run("document.querySelector('input[name=mode][value=calls]').click()")
    same("and back", [[seen(page, it) for it in PARTS], head(page, "upper")[0]], [[True] * 3, "empty_while_inside"])
    press(page, "f")
    same("the picture alone", [seen(page, it) for it in PARTS], [False] * 3)
    press(page, "f")
    path = os.path.join(folder, "other.calls")
    with open(path, "w", encoding="ascii") as file:
        file.write(lossy(2000))
    give(page, path)
    same("the name of a file", [head(page, "upper")[0], head(page, "underhead")[0]], ["other.calls", "empty_while_inside"])
    rows = "return document.querySelectorAll('#picture .lane').length / 2"
    same("some rows of a long one", page.browser.run(rows), 4)
    page.click("save")
    saved = os.path.join(folder, "calls.svg")
    for _ in range(100):
        if os.path.exists(saved):
            break
        time.sleep(0.05)
    with open(saved, encoding="utf-8") as file:
        picture = file.read()
    same("what is saved", [flags(page)[1] in picture, flags_under(page)[1] in picture, picture.count('class="lane"')], [True, False, 24])
    same("sheets of paper", printed(page, 8.27, 11.69).count(b"/Type /Page\n"), 1)
    resize(page, 718, 1046)
    media(page, "print")
    same(
        "on paper",
        [seen(page, it) for it in (*PARTS, "swap")]
        + [page.browser.run("return document.querySelector('#under svg').getBoundingClientRect().bottom <= innerHeight")],
        [True, True, True, False, True],
    )
    media(page)
    resize(page, *PHONE)
    page.browser.run("dispatchEvent(new Event('resize'))")
    names = KEPT_NAMES.replace("#picture", "#under").replace("#names", "#undernames")
    same("names on a phone", [page.browser.run(KEPT_NAMES, 10000), page.browser.run(names, 10000)], [[True] * 3, [True] * 3])
    resize(page)
    page.browser.run("location.hash = 'course=15'")
    page.browser.until("a step of the course", "return document.body.classList.contains('course')")
    same("in the course", [seen(page, it) for it in PARTS], [False] * 3)
    title, said = page.browser.run("return [document.getElementById('compare').title, document.getElementById('help').textContent]")
    same("its words", ["a link does not have it" in title, "Compare keeps" in said], [True, True])


def test_million_beside(page, same, folder):
    """A million lines kept and a few shown, and the other way round: a step, and the memory of the tab."""
    path = os.path.join(folder, "million.calls")
    text = lossy(1000000)
    with open(path, "w", encoding="ascii") as file:
        file.write(text)
    page.open("calls=plain", emptied=True)
    give(page, path)
    page.click("compare")
    page.browser.run("location.hash = 'calls=empty_while_inside'")
    page.browser.until("a small one is shown", "return document.getElementById('upper').textContent.startsWith('empty_while_inside')")
    same("a million lines kept", head(page, "underhead"), ["million.calls", verdict(text), f"{text.count(chr(10))} lines", "kept"])
    for what in ("kept", "shown"):
        page.browser.run("document.activeElement.blur()")
        runs = [page.browser.wait(STEPS) for _ in range(5)]
        took, used = {key: min(run[key] for run in runs) for key in runs[0]}, megabytes(page)
        print(f"a million lines {what}: a step {max(took[key] for key in STEP_KEYS):.0f} ms, a leap {max(took.values()):.0f} ms; {used} MB")
        same(f"a million lines {what}: steps", {key: it for key, it in took.items() if it > slack() * STEPPED * (1 if key in STEP_KEYS else 2)}, {})
        same(f"a million lines {what}: memory", used < MOST_MB, True)
        if what == "kept":
            page.click("swap")
            page.settle()
            same("they have swapped places", [head(page, "upper")[0], head(page, "underhead")[0]], ["million.calls", "empty_while_inside"])
    page.open("calls=plain")


TESTS = [test_compare, test_views, test_million_beside]
