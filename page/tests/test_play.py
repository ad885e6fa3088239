"""Tests of playing against a wrong ring, for page/test: the first challenge can be won, with few keys; the challenges; ending a call by a key; what
is missing. Each takes the page, a `same` that compares and a folder."""
import json

import pack
import plays
from test_use import resize, seen, words

WON = "return document.getElementById('won').textContent"
SCRIPT = "return JSON.parse(document.getElementById('text').value)"
PRESS = {"P": "shift+p", "C": "shift+c"}
MOST_KEYS = 40


def challenges():
    """The challenges: each lesson with its script."""
    list_, scripts = pack.lessons_and_plays()
    return [(it, json.loads(scripts[it["name"]])) for it in list_ if it.get("goal")]


def ring_of(script, wrong):
    names = ("capacity", "modulus", "width", "items", "takes", "close")
    return plays.Ring(wrong, *(script[name] for name in names))


def keys(found):
    """The keys of a play that plays.py found. (A key that answers has its side before it.)"""
    return [PRESS.get(key, key[1] if len(key) == 2 else key) for key in found]


def test_preset(page, same, _):
    """In the first challenge breaking any rule but one reaches some goal, and breaking any of three reaches the goal that is set: a search of all plays
    shows this, and so does the page, which plays what the search found. Breaking the last rule reaches no goal, and the page says so."""
    it, script = challenges()[0]
    page.open("")
    page.browser.run("document.querySelector('#welcome a').click()")
    page.browser.until("the first challenge", "return document.getElementById('of').textContent === arguments[0]", it["name"])
    same(
        "opens empty",
        [script["schedule"], page.browser.run(SCRIPT)["schedule"], page.browser.run("return document.getElementById('goal').value")],
        ["", "", it["goal"]],
    )
    reach = {}
    for wrong in plays.RINGS:
        found, states = plays.reached(ring_of(script, wrong))
        reach[wrong] = sorted(found)
        print(f"{it['name']}, {wrong or 'all rules kept'}: {states} states; {', '.join(f'{goal}: {len(by)} keys' for goal, by in found.items())}")
        for goal, by in found.items():
            if goal == plays.OTHER:
                continue
            page.open(f"script={it['name']}&goal={goal.replace(' ', '+')}")
            page.browser.run("const rule = document.getElementById('rule'); rule.value = arguments[0]; rule.dispatchEvent(new Event('change'))", wrong)
            page.browser.press(*keys(by))
            same(f"{wrong}: {goal}, by {len(by)} keys", [page.browser.run(WON), len(by) <= MOST_KEYS], ["reached", True])
    same("kept, nothing is reached", [reach[""], reach["clears-upwards"]], [[], []])
    same("the goal that is set", [name for name in plays.RINGS if it["goal"] in reach[name]], ["count-before-cell", "small-modulus", "clears-first"])
    same("and the other rule", plays.CLOSED in reach["no-second-scan"], True)
    page.open(f"script={it['name']}")
    page.browser.run("const rule = document.getElementById('rule'); rule.value = 'clears-upwards'; rule.dispatchEvent(new Event('change'))")
    same("is said", words(page, "missing").startswith("no play without this rule reaches it"), True)


def test_challenges(page, same, _):
    """Each challenge opens empty, with its goal and rule, and a hint on request; it is won by keys, and then the item is shown in red."""
    for it, script in challenges():
        page.open(f"script={it['name']}")
        shown = page.browser.run("return ['rule', 'goal'].map(id => document.getElementById(id).value)")
        same(f"{it['name']}: rule and goal", [shown, words(page, "won"), seen(page, "winning")], [[script["wrong"], it["goal"]], "not reached", False])
        same(f"{it['name']}: what is missing", words(page, "missing") != "", True)
        page.click("hint")
        same(f"{it['name']}: its hint", words(page, "hinted"), it["hint"])
        page.browser.press("h")
        same(f"{it['name']}: no hint", words(page, "hinted"), "")
        found, _states = plays.reached(ring_of(script, script["wrong"]))
        page.browser.press(*keys(found[it["goal"]]))
        same(
            f"{it['name']}: won",
            [words(page, "won"), seen(page, "winning"), page.count("#picture .call.fault"), words(page, "missing")],
            ["reached", True, 1, ""],
        )
        same(f"{it['name']}: the words of it", "You have broken the ring" in words(page, "winning"), True)
        page.click("another")
        page.browser.until(f"{it['name']}: another ring", "return !document.getElementById('winning').checkVisibility()")
    page.open("script=break_the_ring")
    page.browser.press(*keys(plays.reached(ring_of(challenges()[0][1], "small-modulus"))[0][plays.TWICE]))
    taken = page.browser.run("return [...document.querySelectorAll('#moments button')].map(it => it.textContent).filter(it => it.includes('taken 1')).length")
    same("the item is seen twice", taken, 2)


def test_ends_of_calls(page, same, _):
    """Shift and a side's letter plays to the end of its call, E to the end of the call under way; both stop at a read that has to be answered."""
    page.open("script=break_small_modulus")
    schedule = lambda: page.browser.run(SCRIPT)["schedule"]
    page.browser.press("shift+p")
    same("a whole put", [schedule(), words(page, "finishP")], ["P10", "whole call"])
    page.browser.press("c", "e")
    same("the take under way", schedule(), "P10C12")
    page.browser.press("p", "c")
    same("two under way", [words(page, "finishP"), words(page, "finishC")], ["end its call", "end its call"])
    page.browser.press("e")
    same("the call of the side that moved last", schedule().startswith("P10C12PC"), True)
    page.open("script=break_small_modulus")
    page.browser.press(*"ppppppppp", "shift+c")
    same("up to a read that has to be answered", [schedule(), seen(page, "askedC")], ["P9C", True])
    page.browser.press("shift+c")
    same("which it does not answer", schedule(), "P9C")
    page.browser.press("0", "e")
    same("and on from there", schedule(), "P9C12")
    page.click("undo")
    same("one back", schedule(), "P9C11")


def test_rules_are_whole(page, same, _):
    """No rule and no goal is cut, in its list, at any size."""
    cut = """const context = document.createElement("canvas").getContext("2d");
return ["rule", "goal"].filter(id => {
  const it = document.getElementById(id);
  context.font = getComputedStyle(it).font;
  return Math.max(...[...it.options].map(option => context.measureText(option.text).width)) + 20 > it.clientWidth;
});"""
    for wide, high in ((1366, 768), (1920, 1080)):
        resize(page, wide, high)
        page.open("script=break_the_ring")
        same(f"whole at {wide}", page.browser.run(cut), [])
    resize(page)


TESTS = [test_preset, test_challenges, test_ends_of_calls, test_rules_are_whole]
