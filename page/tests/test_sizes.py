"""Tests of what is visible at each size, with mouse, keys and touch, for page/test. Each takes the page, a `same` that compares and a folder."""
import json
import re

import pack
from browser import example
from test_use import SIZES, media, resize, seen, show

PHONE = (390, 844)


def open_help(page):
    page.browser.run("document.getElementById('ask').scrollIntoView({block: 'center'})")
    page.click("ask")


def test_sizes(page, same, _):
    for wide, high, scale in SIZES:
        resize(page, wide, high, scale)
        for theme in ("light", "dark"):
            for asked in ("example=stale_read_after_inversion", "script=five_items", "example=batch_count_comes_back", "trace=x"):
                page.open(f"{asked}&theme={theme}")
                what = f"{wide} {theme} {asked}"
                box = page.browser.run(
                    """const it = document.getElementById("verdict").getBoundingClientRect(), all = document.documentElement;
                    const above = [...document.querySelectorAll("button, select, main, textarea")].filter(of => of.checkVisibility() && of.getBoundingClientRect().top < it.top).length;
                    return [scrollX, scrollY, all.scrollWidth <= innerWidth, it.top >= 0 && it.bottom <= innerHeight / 2 && it.height > 10, innerWidth > 832 || above === 0]"""
                )
                same(f"the verdict is seen first, {what}", box, [0, 0, True, True, True])
                same(
                    f"its ground, {what}",
                    page.browser.run("return getComputedStyle(document.body).backgroundColor"),
                    "rgb(255, 255, 255)" if theme == "light" else "rgb(17, 21, 26)",
                )
        page.open("script=five_items")
        scale_of = "const it = document.querySelector('#picture svg'); return it.getBoundingClientRect().width / it.viewBox.baseVal.width"
        same(f"words are not too small, {wide}", page.browser.run(scale_of) > 0.75, True)
        open_help(page)
        same(
            f"help is not cut, {wide}",
            page.browser.run(
                "return [...document.querySelectorAll('#help dd')].filter(it => it.scrollHeight > it.clientHeight + 1 || it.scrollWidth > it.clientWidth + 1).map(it => it.textContent)"
            ),
            [],
        )
    resize(page)
    page.open("example=new_old_inversion&theme=dark")
    media(page, "print")
    ground = "return getComputedStyle(document.querySelector('#picture .bg')).fill"
    same("on paper", [seen(page, "text"), seen(page, "verdict"), seen(page, "story"), page.browser.run(ground)], [False, True, True, "rgb(255, 255, 255)"])
    media(page, forced_colors="active")
    same(
        "forced colours",
        page.browser.run(
            """const of = (name, what) => getComputedStyle(document.querySelector(name))[what], it = document.createElement("i");
        document.body.append(it);
        it.style.color = "CanvasText";
        const text = getComputedStyle(it).color;
        it.remove();
        return [of("#picture .write path", "fill") === text, of("#picture .lane", "fill") === text, of("#picture .bg", "fill") !== text]"""
        ),
        [True, True, True],
    )
    media(page)


# Whether the fault, or the last line shown, is in the visible part of the picture, between what is above it and the buttons, to the right of the fixed names.
IN_VIEW = """const at = it => it.getBoundingClientRect(), room = at(document.querySelector("main")), part = [...document.querySelectorAll("#picture .flag, #picture .line")].at(-1);
if (!part) return true;
const {left, right, top, bottom} = at(part), low = Math.min(room.bottom, innerHeight, ...["steps", "moves"].map(id => at(document.getElementById(id))).filter(it => it.top > room.top).map(it => it.top));
const names = document.querySelector("#names svg");
return left >= (names ? at(names).right : room.left) - 1 && right <= room.right + 1 && top >= room.top - 1 && bottom <= low + 1;"""

# The names at the left of the picture: the fixed ones, or else its own.
KEPT_NAMES = """const at = it => it.getBoundingClientRect(), main = document.querySelector("main"), found = [];
main.scrollLeft = arguments[0];
const own = [...document.querySelectorAll("#picture .lane, #picture .wavename")], kept = [...document.querySelectorAll("#names .lane, #names .wavename")];
const shown = kept.length ? kept : own;
return [shown.map(it => it.textContent).join() === own.map(it => it.textContent).join(),
  shown.every((it, i) => at(it).left >= at(main).left && at(it).right < at(main).left + 80 && Math.abs(at(it).top - at(own[i]).top) < 2), main.scrollLeft > 0];"""


def test_phone(page, same, _):
    """On a phone the fault or the cursor is in view, rows keep their names while they are scrolled, and the steps stay beside the story."""
    resize(page, *PHONE)
    for it in pack.lessons():
        what = f"{it['mode']} {it['name']}"
        show(page, it)
        same(f"{what}: in view", page.browser.run(IN_VIEW), True)
        names = page.browser.run(KEPT_NAMES, 10000)
        same(f"{what}: names", names[:2], [True, True])
        same(f"{what}: names at the start", page.browser.run(KEPT_NAMES, 0), [True, True, False])
    page.open("script=five_items&shown=20")
    for press, what in [("right", "on"), ("home", "to none"), ("end", "to all"), ("left", "back")]:
        page.browser.press(press)
        same(f"a step {what}: in view", page.browser.run(IN_VIEW), True)
    for asked in ("example=unary_write", "script=five_items", "calls=batch"):
        page.open(asked)
        for part in ("story", "question", "text"):
            page.browser.run("document.getElementById(arguments[0]).scrollIntoView()", part)
            on_top = page.browser.run(
                """return ["back", "on", ...document.body.classList.contains("script") ? ["undo"] : []].every(id => {
                const it = document.getElementById(id), {left, top, width, height} = it.getBoundingClientRect();
                return top >= 0 && top + height <= innerHeight && it.contains(document.elementFromPoint(left + width / 2, top + height / 2));
            })"""
            )
            same(f"the steps beside the {part} of {asked}", on_top, True)
    page.browser.run("document.getElementById('tools').scrollIntoView()")
    same(
        "the last of the page is not under the steps",
        page.browser.run(
            "return document.getElementById('tools').getBoundingClientRect().bottom <= Math.min(...['steps', 'moves'].map(id => document.getElementById(id).getBoundingClientRect().top).filter(it => it > 0))"
        ),
        True,
    )
    resize(page)


# Touch targets that are too small for a finger. (What a word in a line of text, or a bar of the picture, does can also be done elsewhere.)
SMALL = """return [...document.querySelectorAll("button, select, summary, input, #modes label, #welcome a, #replay")].filter(it => it.checkVisibility({visibilityProperty: true, opacityProperty: true}))
  .map(it => [it.id || it.textContent, it.getBoundingClientRect()]).filter(([, it]) => it.width > 0 && (it.width < 44 || it.height < 44)).map(([name, it]) => `${name} ${Math.round(it.width)} ${Math.round(it.height)}`)"""


def test_targets(page, same, _):
    for wide, high, scale in SIZES[:2]:
        resize(page, wide, high, scale)
        for asked in ("", "example=stale_item", "script=five_items", "script=small_modulus&shown=22", "calls=batch", "course=3", "trace=x"):
            page.open(asked)
            same(f"targets of {asked} at {wide}", page.browser.run(SMALL), [])
        open_help(page)
        same(f"targets of the help at {wide}", page.browser.run(SMALL), [])
    resize(page)


# ---- a game, won by touch, mouse and keys -------------------------------------------------------------------------------------------------

GAME, GOAL = "small_modulus", "take an item twice"


def tap(page, selector):
    """Touches the middle of an element, which has to be in view; returns what is there."""
    x, y, hit = page.browser.run(
        """const it = document.querySelector(arguments[0]), {left, top, width, height} = it.getBoundingClientRect(), [x, y] = [left + width / 2, top + height / 2];
        return [x, y, it.contains(document.elementFromPoint(x, y))]""",
        selector,
    )
    for kind, points in [("touchStart", [{"x": x, "y": y}]), ("touchEnd", [])]:
        page.browser.devtools("Input.dispatchTouchEvent", {"type": kind, "touchPoints": points})
    return hit


def press(page, selector):
    keys = {"moveP": "p", "moveC": "c"}
    name = re.search(r"move[PC]|data-answer=\"(\d)\"", selector)
    page.browser.press(keys.get(name[0], name[1]))
    return True


def click(page, selector):
    page.browser.click(selector)
    return True


def win(page, same, how, by):
    """Plays the game from its start, by the letters and answers of its script, each with `by`."""
    script, answers = json.loads(example(f"wrong/{GAME}.json")), 0
    page.open(f"script={GAME}&goal={GOAL.replace(' ', '+')}")
    page.browser.run("document.getElementById('anew').click()")
    won = "return [document.getElementById('won').textContent, document.getElementById('place').textContent]"
    same(f"by {how}: from the start", page.browser.run(won), ["not reached", "letter 0 / 0"])
    letters = [side for side, times in re.findall(r"([PC])(\d+)", script["schedule"]) for _ in range(int(times))]
    missed = []
    for at, side in enumerate(letters):
        asked = page.browser.run("return !document.getElementById(`asked${arguments[0]}`).hidden", side)
        selector = f'[data-side="{side}"][data-answer="{script["oracle"][answers]}"]' if asked else f"#move{side}"
        answers += asked
        if not by(page, selector):
            missed.append(selector)
        page.browser.until(f"by {how}: letter {at + 1}", "return document.getElementById('place').textContent === arguments[0]", f"letter {at + 1} / {at + 1}")
    same(f"by {how}: each was in view", missed, [])
    same(f"by {how}: won", page.browser.run(won), ["reached", f"letter {len(letters)} / {len(letters)}"])
    same(f"by {how}: the fault is in view", page.browser.run(IN_VIEW), True)


def test_game(page, same, _):
    """A goal is reached on a phone by touch, on a screen by mouse, and on a large one by keys."""
    resize(page, *PHONE)
    page.browser.devtools("Emulation.setTouchEmulationEnabled", {"enabled": True, "maxTouchPoints": 1})
    win(page, same, "touch", tap)
    page.browser.devtools("Emulation.setTouchEmulationEnabled", {"enabled": False})
    resize(page, 1366, 768)
    win(page, same, "mouse", click)
    resize(page, 1920, 1080)
    win(page, same, "keys", press)
    resize(page)


TESTS = [test_sizes, test_phone, test_targets, test_game]
