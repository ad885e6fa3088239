"""Tests of the lecture as a teacher gives it, for page/test: the wrong rings, a clicker, notes in a window, what remains with the picture alone. Each
takes the page, a `same` that compares and a folder."""
import re
import time

import pack
from test_use import resize, seen, words

# The steps whose ring is wrong, each with the fault that is found in its calls.
WRONG = {
    "count_before_cell": "item 0 was not inside",
    "no_second_scan": "closed, but item 1 was inside",
    "small_modulus": "item 1 comes again",
    "batch_twice": "item 1 comes again",
    "small_modulus__takes": "item 0 was not inside",
}
WHICH = "return document.getElementById('which').textContent"


def test_wrong_steps(page, same, _):
    """Each step of a wrong ring shows an item that is lost, doubled or was never put: the take is red, with a flag that says so."""
    steps = pack.course()
    at = [number for number, it in enumerate(steps) if it["name"] in WRONG]
    same("the steps", [steps[number]["name"] for number in at], list(WRONG))
    for number in at:
        name = steps[number]["name"]
        page.open(f"course={number + 1}&shown=1000")
        page.browser.press("v")
        red = page.browser.run("return [...document.querySelectorAll('#picture .call.fault .callwords')].map(it => it.textContent)")
        same(f"{name}: a take is red", [len(red), all(it.startswith("take: ") for it in red)], [1, True])
        flag = page.browser.run("return [...document.querySelectorAll('#picture .flagwords')].map(it => it.textContent)")
        same(f"{name}: a flag says so", any(WRONG[name] in it for it in flag), True)
        same(f"{name}: it is found", WRONG[name] in words(page, "found"), True)


def test_aside(page, same, _):
    """A play opened from a step stays in the course, and a button leads back."""
    browser = page.browser
    page.open("script=count_before_cell&course=3")
    same("in the course", [browser.run(WHICH).startswith("step 3 of"), seen(page, "lecture"), words(page, "reset")], [True, True, "Back to step 3"])
    page.click("reset")
    browser.until("back", "return document.getElementById('of').textContent === arguments[0]", pack.course()[2]["name"])
    same("at its end", [words(page, "place"), page.hash().split("&")[1]], ["line 9 / 9", "course=3"])
    for name in [it for it in pack.lessons() if it["play"]][:1]:
        page.open(f"example={name['name']}")
        same("and outside the course it does not", "course" in browser.run("return document.getElementById('replay').href"), False)


def test_clicker(page, same, _):
    """A clicker moves event by event, and after the last one to the next step; and back."""
    browser = page.browser
    place = lambda: words(page, "place")
    page.open("course=1")
    same("it begins with something in the picture", [place(), page.count("#picture [data-line]")], ["line 2 / 9", 1])
    for line in range(3, 10):
        browser.press("pagedown")
        same(f"to line {line}", place(), f"line {line} / 9")
    browser.press("pagedown")
    browser.until("the next step", f"{WHICH}.startsWith('step 2 ')")
    browser.press("pageup")
    browser.until("the step before", f"{WHICH}.startsWith('step 1 ')")
    same("at its end", place(), "line 9 / 9")
    board = next(number for number, it in enumerate(pack.course()) if "board" in it)
    page.open(f"course={board + 1}")
    same("the law, instead of a picture", [seen(page, "board"), seen(page, "picture"), page.count("#board tr") >= 8], [True, False, True])
    browser.press("pagedown")
    browser.until("and on", f"{WHICH}.startsWith(arguments[0])", f"step {board + 2} ")


def test_boards(page, same, _):
    """All minutes of the lecture are in the page: the steps cover 0 to 65 without a gap, and a step without a history is a board."""
    minutes = [tuple(map(int, it["minutes"].split("–"))) for it in pack.course()]
    same("minutes", [minutes[0][0], minutes[-1][1], all(one[1] == two[0] for one, two in zip(minutes, minutes[1:]))], [0, 65, True])
    page.open(f"course={len(minutes)}")
    same("the commands", "lamport_ring run --record" in words(page, "board"), True)


def test_large(page, same, _):
    """With the picture alone, rules, goal, hint and Start over are one click away, and a win is shown over the picture."""
    browser = page.browser
    resize(page, 1366, 768)
    page.open("course=22")
    browser.press("f")
    browser.until("large", "return document.body.classList.contains('present')")
    same("at hand", [seen(page, it) for it in ("rule", "goal", "anew")], [False, False, False])
    page.click("setting")
    same("by a click", [seen(page, it) for it in ("rule", "goal", "anew")], [True, True, True])
    browser.run("const goal = document.getElementById('goal'); goal.value = 'take an item twice'; goal.dispatchEvent(new Event('change'))")
    browser.press("end")
    same("the goal is reached", [words(page, "won"), seen(page, "winning")], ["reached", True])
    main = "return document.querySelector('main').getBoundingClientRect().top <= 90"
    same("and what is over the picture takes no room", browser.run(main), True)
    browser.press("f")
    resize(page)


def test_notes(page, same, _):
    """The teacher's notes are in a window of their own, follow the steps, and show the clock, which survives a reload."""
    browser = page.browser
    page.open("course=1")
    page.browser.run("sessionStorage.setItem('lecture began', Date.now() - 754000)")
    page.open("course=1")
    same("the clock is kept", words(page, "clock").startswith("12:3"), True)
    page.click("ownwindow")
    windows = browser.windows()
    same("a window", len(windows), 2)
    browser.use(windows[1])
    said = "return document.body.textContent"
    same("what to say", [re.sub(r"[*]", "", pack.course()[0]["say"]) in browser.run(said), "Next: The old value" in browser.run(said)], [True, True])
    browser.use(windows[0])
    browser.press("end", "pagedown")
    browser.until("the next step", f"{WHICH}.startsWith('step 2 ')")
    browser.use(windows[1])
    same("they follow", pack.course()[1]["say"] in browser.run(said), True)
    time.sleep(1.1)
    same("with the clock", "12:3" in browser.run(said), True)
    browser.shut()
    browser.use(windows[0])
    browser.press("end", "pagedown")
    browser.until("without the notes it still works", f"{WHICH}.startsWith('step 3 ')")


TESTS = [test_wrong_steps, test_aside, test_clicker, test_boards, test_large, test_notes]
