"""Tests of the first screen, of links and of a phone, for page/test. Each takes the page, a `same` that compares and a folder."""
import pack
from test_use import NAMED, resize, seen, words

PHONE = (390, 844)
# What is wider than the screen: the page, or an element of it that does not scroll.
TOO_WIDE = """const wide = document.documentElement.clientWidth, all = [...document.querySelectorAll("body *")];
const isScrolled = it => it.closest("main, #editor, dialog, textarea") !== null;
const over = all.filter(it => it.checkVisibility() && !isScrolled(it) && it.getBoundingClientRect().right > wide + 1);
return [document.documentElement.scrollWidth > wide, over.slice(0, 3).map(it => it.id || it.localName)];"""


def test_welcome(page, same, _):
    """The first screen reappears after a reload, and the title leads back to it."""
    browser = page.browser
    page.open("")
    same("the first screen", seen(page, "welcome"), True)
    page.hash()
    browser.refresh()
    browser.until("after a reload", "return document.getElementById('welcome')?.checkVisibility() === true")
    browser.press("left")
    same("a step leaves it", seen(page, "welcome"), False)
    page.open("calls=plain")
    browser.run("document.querySelector('h1 a').click()")
    browser.until("the title leads home", "return document.getElementById('welcome').checkVisibility()")


def test_unknown_parts(page, same, _):
    """Unknown parts of a link are reported, and the rest is shown."""
    for link, note in (
        ("script=plain_path&colour=red", "A link has no part colour: it was left out."),
        ("script=plain_path&course=99", "The course has no step 99."),
        ("script=plain_path&goal=win", "There is no goal “win”."),
        ("script=plain_paths", "There is no example plain_paths of this kind."),
    ):
        page.open(link)
        same(f"{link}: the note", words(page, "note"), note)
    page.open("script=plain_path")
    same("no note for a good link", words(page, "note"), "")


def test_letters(page, same, _):
    """Single-letter keys can be switched off, also across a reload; the other keys still work."""
    browser = page.browser
    page.open("script=break_the_ring")
    browser.press("p")
    same("P plays", words(page, "place"), "letter 1 / 1")
    page.click("ask")
    page.click("letters")
    page.click("close")
    browser.press("p")
    same("and no longer", words(page, "place"), "letter 1 / 1")
    browser.press("left")
    same("an arrow works", words(page, "place"), "letter 0 / 1")
    page.open("script=break_the_ring")
    browser.press("p")
    same("after a reload", words(page, "place"), "letter 0 / 0")
    browser.run("localStorage.clear()")
    page.open("script=break_the_ring")
    browser.press("p")
    same("on again", words(page, "place"), "letter 1 / 1")


def test_narrow(page, same, _):
    """On a phone nothing is wider than the screen, and the whole legend is visible under a picture that is wider."""
    resize(page, *PHONE)
    links = [f"{NAMED[it['mode']]}={it['name']}" for it in pack.lessons()[::4]] + ["", "course=20", "course=25", "script=break_the_ring"]
    for link in links:
        page.open(link)
        same(f"{link}: nothing is wider", page.browser.run(TOO_WIDE), [False, []])
        legend = """const kept = [...document.querySelectorAll("#legend span")], room = document.querySelector("main").getBoundingClientRect();
document.querySelector("main").scrollLeft = 200;
return kept.every(it => it.getBoundingClientRect().left >= room.left - 1 && it.getBoundingClientRect().right <= room.right + 1);"""
        same(f"{link}: its legend", page.browser.run(legend), True)
    page.open("script=plain_path")
    same("there is one", [page.count("#legend span") >= 3, page.count("#picture .legends.elsewhere")], [True, 1])
    resize(page)


TESTS = [test_welcome, test_unknown_parts, test_letters, test_narrow]
