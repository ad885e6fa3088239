"""Tests of the page on paper, of its words for one of anything and of its contrast, for page/test. Each takes the page, a `same` that compares
and a folder."""
import base64
import re

import pack
from test_use import media, resize, show

SHEETS = {"A4": (8.27, 11.69), "letter": (8.5, 11)}  # of paper, in inches


def printed(page, wide, high):
    """The page on paper of this size, as a PDF."""
    answer = page.browser.devtools("Page.printToPDF", {"paperWidth": wide, "paperHeight": high, "printBackground": True})
    return base64.b64decode(answer["data"])


def test_paper(page, same, _):
    """Each lesson is one sheet of paper, with its whole story, its question and its picture."""
    for at, it in enumerate(pack.lessons()):
        show(page, it)
        for name, size in SHEETS.items() if at % 6 == 0 or it["name"] in ("five_items", "clears_first") else [("A4", SHEETS["A4"])]:
            same(f"{it['mode']} {it['name']}: sheets of {name}", len(re.findall(rb"/Type\s*/Page\b", printed(page, *size))), 1)
    resize(page, 718, 1046)  # A4 without its margins
    media(page, "print")
    for it in pack.lessons():
        show(page, it)
        cut = page.browser.run(
            """return ["lesson", "side", "told"].filter(id => document.getElementById(id).scrollHeight > document.getElementById(id).clientHeight + 1)
            .concat(["story", ...arguments[0] ? ["question"] : [], "verdict"].filter(id => !document.getElementById(id).checkVisibility()),
              document.querySelector("#picture svg")?.getBoundingClientRect().bottom > innerHeight ? ["picture"] : [])""",
            it["question"] != "",
        )
        same(f"{it['mode']} {it['name']}: what is cut or missing on paper", cut, [])
    media(page)
    resize(page)


# The lowest contrast of any clickable element's words to their background, with its words. (The luminance is that of WCAG 2.)
CONTRAST = """const parts = text => { const [r, g, b, a = 1] = text.match(/[\\d.]+/g).map(Number); return text.startsWith("color(") ? [r * 255, g * 255, b * 255, a] : [r, g, b, a]; };
const over = (top, under) => [0, 1, 2].map(i => top[i] * top[3] + under[i] * (1 - top[3])).concat(1);
const groundOf = it => { if (!it) return [255, 255, 255, 1]; const own = parts(getComputedStyle(it).backgroundColor); return own[3] === 1 ? own : over(own, groundOf(it.parentElement)); };
const opacityOf = it => it ? Number(getComputedStyle(it).opacity) * opacityOf(it.parentElement) : 1;
const light = ([r, g, b]) => [r, g, b].map(it => it / 255).map(it => it <= 0.04045 ? it / 12.92 : ((it + 0.055) / 1.055) ** 2.4).reduce((sum, it, i) => sum + it * [0.2126, 0.7152, 0.0722][i], 0);
const all = [...document.querySelectorAll("button, a, select, summary, label, .term, option:checked")].filter(it => it.checkVisibility({visibilityProperty: true}) && !it.disabled);
return all.flatMap(it => [it, ...it.querySelectorAll("span, b, code")]).filter(it => it.textContent.trim()).map(it => {
  const ground = groundOf(it), ink = parts(getComputedStyle(it).color), seen = over([...ink.slice(0, 3), ink[3] * opacityOf(it)], ground), [a, b] = [light(seen), light(ground)].sort((a, b) => b - a);
  return [(a + 0.05) / (b + 0.05), `${it.localName} ${it.id} ${it.textContent.slice(0, 30)}`];
}).sort(([a], [b]) => a - b)[0];"""


def test_numbers_of_one(page, same, _):
    """The page uses the singular for one of anything."""
    said = """const titles = [...document.querySelectorAll("svg title")].map(it => it.textContent), names = [...document.querySelectorAll("[aria-label], [title]")].map(it => `${it.ariaLabel} ${it.title}`);
        return [document.title, document.body.innerText, ...titles, ...names].join("\\n").match(/(?<![\\w.])1 (items|letters|lines|events|cells|bits|bytes|reads|writes|calls|takes|puts|scans|digits|steps|lessons|rows)\\b/g)"""
    for it in pack.lessons():
        for more in ("", "&shown=1"):
            show(page, it, more)
            same(f"of one, {it['mode']} {it['name']}{more}", page.browser.run(said), None)
    page.open("script=nothing")
    page.browser.press("p")
    same("of one letter", [page.browser.run(said), page.title()], [None, "played 1 of 1 letter"])


def test_contrast(page, same, _):
    """Clickable elements have a contrast of at least 4.5 to 1, light and dark."""
    for theme in ("light", "dark"):
        for asked in (
            "",
            "example=stale_item",
            "script=five_items&shown=40",
            "script=small_modulus&shown=22&goal=take+an+item+twice",
            "calls=batch",
            "course=3",
            "trace=x",
        ):
            page.open(f"{asked}&theme={theme}" if asked else f"theme={theme}")
            if asked == "":
                page.browser.run("document.getElementById('welcome').hidden = false")
            ratio, what = page.browser.run(CONTRAST)
            same(f"the least contrast, {theme} {asked}: {what} {ratio:.2f}", ratio >= 4.5, True)
        page.click("ask")
        ratio, what = page.browser.run(CONTRAST)
        same(f"the least contrast of the help, {theme}: {what} {ratio:.2f}", ratio >= 4.5, True)


TESTS = [test_paper, test_numbers_of_one, test_contrast]
