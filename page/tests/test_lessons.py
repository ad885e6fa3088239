"""Tests of the lessons, for page/test: titles, stories and questions; the course as it is taught; its exercises. Each takes the page, a `same` that compares and a folder."""
import json
import re

import pack
from test_use import resize, seen, words

# Whether a part of the lesson is visible without scrolling.
SEEN = """const of = id => document.getElementById(id).getBoundingClientRect(), [it, lesson] = [of(arguments[0]), of("lesson")];
return it.height > 10 && it.top >= lesson.top - 1 && it.bottom <= lesson.bottom + 1 && lesson.bottom <= innerHeight;"""
FILES = {".trace": "trace", ".json": "script", ".calls": "calls", ".reg": "register", ".js": "lab"}
STALE = r"lesson before|the same (take|put|writes)|as before|\bgate\b|\b(docs|examples|page|tests)/|\.md\b|\.json\b"  # what no text of a lesson may contain


def titles():
    return {(it["mode"], it["name"]): it["title"] for it in pack.lessons()}


def shown(text, lessons):
    """A text as the page shows it: with a lesson's title instead of its name."""

    def title_of(match):
        name, ending = re.fullmatch(r"(\w+?)(\.trace|\.json|\.calls|\.reg|\.js)?|.*", match[1]).groups()
        named = [it for it in lessons if it["name"] == name]
        first = next((it for it in named if it["mode"] == FILES.get(ending, "script")), named[0] if named else None)
        return f"“{first['title']}”" if first else match[1]

    return re.sub(r"`([^`]*)`", title_of, text)


def test_titles(page, same, _):
    """Each lesson has a title in plain words, in the list and beside the picture, with the name of its example."""
    lessons = pack.lessons()
    for it in (it for it in lessons if it["chapter"] != pack.UNTAUGHT):
        same(
            f"the title of {it['name']} is plain and short",
            ["_" in it["title"], len(it["title"].split()) <= 7, it["title"] != it["name"].replace("_", " ")],
            [False, True, True],
        )
    same("no title twice", len({it["title"] for it in lessons}), len(lessons))
    page.open("script=two_cells")
    same("beside the picture", [words(page, "name"), words(page, "of")], ["Three items, two cells", "two_cells"])
    options = page.browser.run("return [...document.querySelectorAll('#example option[title]')].map(it => [it.value, it.textContent, it.title])")
    steps = [[f"course {at}", f"{at + 1}. {it.get('title', titles()[it['mode'], it['name']])}", it["name"]] for at, it in enumerate(pack.course())]
    same("in the list", options, steps + [[f"{it['mode']} {it['name']}", it["title"], it["name"]] for it in lessons])


def test_stories(_, same, __):
    """No text of a lesson refers to what the page does not show, and no story gives its answer away."""

    def plain(text):
        return re.findall(r"[\w.]+", text.lower().replace("`", ""))

    for it in pack.lessons():
        text = " ".join([it["title"], *it["story"], it["question"], it["answer"]])
        same(f"{it['mode']} {it['name']}: what it refers to", re.findall(STALE, text), [])
        story, answer = " ".join(plain(" ".join(it["story"]))), plain(it["answer"])
        shared = [run for run in (" ".join(answer[at : at + 6]) for at in range(len(answer) - 5)) if run in story]
        same(f"{it['mode']} {it['name']}: six words of the answer in the story", shared, [])


def test_lessons(page, same, _):
    stories, lessons = pack.stories(), pack.lessons()
    names = json.loads(pack.examples()["examples.json"])
    same("each example has one lesson", sorted((it["mode"], it["name"]) for it in lessons), sorted((mode, it) for mode in pack.MODES for it in names[mode]))
    chapters = list(dict.fromkeys(it["chapter"] for it in lessons if it["mode"] not in ("register", "lab")))
    same(
        "chapters",
        chapters,
        [
            "A safe bit",
            "The unary register",
            "A put and a take",
            "A count while it is written",
            "The close",
            "Several items at once",
            "Rings that are wrong",
            "Break the ring",
            "Played by rings that are wrong",
            "A modulus one too small",
            "Recorded calls",
        ],
    )
    page.open("")
    for at, it in enumerate(lessons):
        page.browser.until(f"lesson {at + 1}", "return document.getElementById('example').value === arguments[0]", f"{it['mode']} {it['name']}")
        same(
            f"lesson {at + 1}",
            [words(page, "which"), words(page, "name"), words(page, "of")],
            [f"{at + 1} of {len(lessons)} · {it['chapter']}", it["title"], it["name"]],
        )
        same(
            f"story of {it['name']}",
            page.browser.run("return [...document.querySelectorAll('#story p')].map(it => it.textContent)"),
            [shown(text, lessons) for text in stories.get((it["mode"], it["name"]), it["story"])],
        )
        same(
            f"question of {it['name']}",
            [words(page, "question"), words(page, "answer"), page.browser.run("return document.getElementById('answer').checkVisibility()")],
            [shown(it["question"], lessons), shown(it["answer"], lessons), False],
        )
        if it["chapter"] != pack.UNTAUGHT:
            same(f"{it['name']} has all three", all([it["question"], it["answer"], it["story"]]), True)
            same(f"question of {it['name']} is seen", page.browser.run(SEEN, "question"), True)
            page.click("question")
            page.browser.until(f"answer of {it['name']} is seen when it unfolds", SEEN, "answer")
        if at + 1 < len(lessons):
            page.click("next")
    same("the last", page.browser.run("return document.getElementById('next').disabled"), True)
    page.click("previous")
    page.browser.until("the one before", "return document.getElementById('which').textContent.startsWith(arguments[0])", f"{len(lessons) - 1} ")
    page.write("shape 1 3 1\n")
    same("a lesson stays beside its text while it is edited", [seen(page, "lesson"), seen(page, "reset")], [True, True])
    page.open("trace=shape+1+3+1%0A")
    same("no lesson beside an own text", seen(page, "lesson"), False)


REPLAYS = {  # for a trace that departs from the programs, or only begins to lose an item: the script that plays its story, the line after which there are no calls, what is found
    "stale_item": ("count_before_cell", 3, "was not inside"),
    "closed_loses_an_item": ("no_second_scan", None, "closed, but item 1 was inside"),
    "modulus_one_too_small": ("small_modulus", 20, "item 1 comes again"),
    "batch_count_comes_back": ("", 5, "item 1 comes again"),
}


def test_replays(page, same, _):
    """A trace that breaks the ring shows where its calls end, and offers a play that has them all; a play of its own text makes exactly its accesses."""
    browser = page.browser
    for name, (script, line, found) in REPLAYS.items():
        page.open(f"example={name}")
        same(f"{name}: where its calls end", words(page, "uncalled"), f"after line {line} the accesses belong to no calls of the ring" if line else "")
        trace = page.text()
        browser.run("document.querySelector('#replay').click()")
        browser.until(f"{name} is played", "return document.body.classList.contains('script')")
        same(f"{name}: its script", browser.run("return document.getElementById('example').value"), f"script {script}" if script else "")
        same(f"{name}: what is found", found in words(page, "found"), True)
        if not script:
            page.click("astrace")
            same(f"{name}: the same accesses", page.text().split("\n")[1:], trace.split("\n")[1:])
    page.open("example=plain_path")
    same("and if nothing breaks", [seen(page, "replay"), words(page, "uncalled")], [False, ""])


LECTURE = "return ['verdict', 'story', 'reveal', 'say'].map(id => document.getElementById(id).checkVisibility())"


CUT = "return ['side', 'source', 'told'].filter(id => document.getElementById(id).scrollHeight > document.getElementById(id).clientHeight + 1)"


EXPLORED = "return !document.body.classList.contains('stale')"  # whether the lab, if shown, has finished


def first_place(step):
    """The place at which a step of the course begins; in the lab there is a history only if a class is missed."""
    if step["mode"] != "lab":
        return "letter 1" if step["mode"] == "script" else "line 2"
    return "step 1" if re.search(r"^// .*: .*; not ", pack.read(f"constructions/{step['name']}.js").decode(), flags=re.M) else ""


def test_course(page, same, _):
    """The steps of docs/COURSE.md in order, each starting at its first event, with its findings folded until they are requested."""
    browser, steps = page.browser, pack.course()
    which, place = ("return document.getElementById('which').textContent", "return document.getElementById('place').textContent.split(' / ')[0]")
    resize(page, 1366, 768)
    page.open("course=1")
    for at, it in enumerate(steps):
        browser.until(f"step {at + 1}", f"{which} === arguments[0]", f"step {at + 1} of {len(steps)}")
        browser.until(f"step {at + 1}: explored", EXPLORED)
        same(
            f"step {at + 1}",
            [words(page, "name"), browser.run(place), words(page, "minutes")],
            [titles()[it["mode"], it["name"]], first_place(it), f"{it['minutes']} min"],
        )
        same(
            f"step {at + 1} is folded",
            [browser.run(LECTURE), browser.run("return document.title")],
            [[False, False, "board" not in it, True], f"step {at + 1} of the course"],
        )
        same(f"step {at + 1}: no replies yet", seen(page, "report"), False)
        browser.press("end", "v")
        same(
            f"step {at + 1}: the notes and the question are not cut",
            [browser.run(SEEN, "say"), browser.run(SEEN, "question"), browser.run(CUT)],
            [True, True, []],
        )
        browser.press("pagedown")
    resize(page)
    same("the last", browser.run(which).split(" ")[1], str(len(steps)))
    browser.press("home", "pageup")
    browser.until("one back", f"{which}.startsWith(arguments[0])", f"step {len(steps) - 1} ")
    page.open("course=2")
    found = "return [document.querySelectorAll('#picture .flag').length, document.querySelectorAll('#numbers b').length]"
    browser.press("end")
    same("nothing is marked", browser.run(found), [0, 0])
    browser.press("v")
    same(
        "what is found",
        [browser.run(LECTURE), browser.run(found), page.verdicts()[0]],
        [[True, True, False, True], [2, 1], "bits: fault: line 9: not permitted"],
    )
    browser.press("left")
    same("it stays so in this step", browser.run(LECTURE)[0], True)
    same("its link", page.hash(), "#example=stale_read_after_inversion&course=2&shown=7")
    page.open(page.hash()[1:])
    same("leads there", [browser.run(place), browser.run(LECTURE)[0]], ["line 8", False])
    browser.run("const it = document.getElementById('example'); it.value = 'script plain_path'; it.dispatchEvent(new Event('change'))")
    browser.until("another lesson leaves the course", "return document.getElementById('of').textContent === 'plain_path'")
    same("with nothing folded", [browser.run(LECTURE), page.hash(), seen(page, "lecture")], [[True, True, False, False], "#script=plain_path", False])


# The smallest visible letter size, of the page and of its picture, and the text that has it.
LETTERS = """const sizes = [], walk = document.createTreeWalker(document.body, NodeFilter.SHOW_TEXT);
for (let it = walk.nextNode(); it; it = walk.nextNode()) {
  const of = it.parentElement, svg = of.ownerSVGElement;
  if (!it.data.trim() || !of.checkVisibility({visibilityProperty: true}) || of.closest("title, option")) continue;
  sizes.push([parseFloat(getComputedStyle(of).fontSize) * (svg ? svg.getScreenCTM().a : 1), it.data]);
}
return sizes.sort(([a], [b]) => a - b)[0];"""


# Whether the whole picture, or board, is visible, with at most 90 px above it.
FITS = """const of = it => document.querySelector(it).getBoundingClientRect(), it = of(document.body.classList.contains("board") ? "#board" : "#picture svg"), main = of("main");
return [it.bottom <= innerHeight && it.right <= innerWidth, main.top <= 90];"""


def test_lecture(page, same, _):
    """F: each step alone in large letters, turned by a clicker wherever the focus is, with the notes under it on request; and the clock."""
    browser, steps = page.browser, pack.course()
    page.open("course=1")
    browser.press("f")
    browser.until("the whole screen", "return document.fullscreenElement === document.documentElement && document.body.classList.contains('present')")
    resize(page, 1366, 768)
    same("no side column", [seen(page, "side"), seen(page, "say")], [False, False])
    for at, it in enumerate(steps):
        browser.until(f"{at + 1}, large", "return document.getElementById('at').textContent === arguments[0]", f"{at + 1} / {len(steps)}")
        browser.until(f"{at + 1}: explored", EXPLORED)
        browser.press("end", "v")
        size, text = browser.run(LETTERS)
        # (a picture of one row has large letters, one of several rows fits the screen as a whole; the lab shows its bound at size 14, and sometimes no picture)
        width, high = browser.run("const {width, height} = document.querySelector('#picture svg')?.viewBox.baseVal ?? {}; return [width ?? 0, height ?? 0]")
        least = 8 if high >= width / 2 or width >= 1100 else 14 if it["mode"] == "lab" else 15
        same(f"the least letters of step {at + 1}: {text}", size >= least, True)
        same(f"step {at + 1} fits, with little around it", browser.run(FITS) if width else first_place(it), [True, True] if width else "")
        same(f"the title of step {at + 1}", words(page, "about"), it.get("title", titles()[it["mode"], it["name"]]))
        browser.run("document.getElementById(arguments[0]).focus()", ("shown", "waves", "present")[at % 3])
        browser.press("pagedown")
    browser.press("s")
    under = "const [say, main] = ['#say', 'main'].map(it => document.querySelector(it).getBoundingClientRect()); return say.top >= main.bottom && say.bottom <= innerHeight && say.left < 40"
    same("the notes, under the picture", [seen(page, "say"), browser.run(under), browser.run(LETTERS)[0] >= 8], [True, True, True])
    same("and the question", seen(page, "question"), True)
    browser.press("s", "f")
    browser.until("F leaves it", "return document.fullscreenElement === null && document.getElementById('side').checkVisibility()")
    browser.press("f")
    browser.until("again", "return document.fullscreenElement !== null")
    browser.wait("await document.exitFullscreen(); return 1")  # as Esc does
    browser.until("and so does leaving full screen", "return document.getElementById('side').checkVisibility()")
    resize(page)
    page.click("clock")
    browser.run("const now = Date.now(); Date.now = () => now + 754000")
    browser.press("pageup")
    browser.until("the clock", "return document.getElementById('clock').textContent.startsWith('12:3')")
    same(
        "its words",
        browser.wait("const {clockWords} = await import(new URL('panes/lecture.js', location)); return [0, 9.7, 754, 3599, 3600, 3725].map(clockWords)"),
        ["0:00", "0:09", "12:34", "59:59", "1:00:00", "1:02:05"],
    )


def test_exercises(page, same, _):
    """The exercises of docs/COURSE.md with a ring that is nearly right, each done by keys in the page."""
    browser, result = page.browser, "return [document.getElementById('found').textContent, document.getElementById('won').textContent]"

    def choose(id_, value):
        browser.run("const it = document.getElementById(arguments[0]); it.value = arguments[1]; it.dispatchEvent(new Event('change'))", id_, value)

    def play(keys):
        page.click("anew")
        browser.press(*keys)
        return browser.run(result)

    # 10: the item is taken before it is written, and not if it is written first
    page.open("script=nothing")
    choose("rule", "count-before-cell")
    choose("goal", "take what was never put")
    same("exercise 10, wrong", play("p" * 5 + "c0" + "c" * 8), ["calls: fault: letter 15: item 0 was not inside; item 1 of letter 1 is next", "reached"])
    same("exercise 10, right", play("p" * 8 + "c" * 10), ["calls: lawful", "not reached"])
    # 11: Closed is returned after one scan, and not if the put comes first
    page.open("script=no_second_scan&goal=get+Closed+with+an+item+inside")
    same("exercise 11, wrong", play("cc" + "p" * 10 + "cc"), ["calls: fault: letter 14: closed, but item 1 was inside since letter 10", "reached"])
    same("exercise 11, right", play("p" * 10 + "c" * 20), ["calls: lawful", "not reached"])
    # 12: the second answer doubles the item; the correct ring returns Empty there
    page.open("script=small_modulus&goal=take+an+item+twice")
    browser.press(*"u" * 7)
    same("exercise 12, the second answer is due", [words(page, "place"), words(page, "wordsC")], ["letter 22 / 22", "C got s0"])
    browser.press("0", *"c" * 5)
    same("exercise 12, answered 0", [*browser.run(result), words(page, "place")], ["calls: lawful", "not reached", "letter 28 / 28"])
    browser.press(*"u" * 6, "1", *"c" * 6)
    same("exercise 12, answered 1", browser.run(result), ["calls: fault: letter 29: item 1 comes again, it was taken at letter 21; none is next", "reached"])
    choose("rule", "")
    same("exercise 12, by the ring", [*browser.run(result), "C finds it empty" in words(page, "moments")], ["calls: lawful", "not reached", True])
    # 13: a scan between the two clears returns a count between the two, and no item is lost
    with open(f"{pack.TOP}/docs/COURSE.md", encoding="utf-8") as file:
        script = re.search(r"echo '([^']*)' \| ./lamport_ring play --wrong clears-upwards", file.read())[1]
    page.write(script)
    choose("rule", "clears-upwards")
    same("exercise 13", browser.run(result)[0], "calls: lawful")
    for letter, scans in [(224, "2"), (225, "2 or 3"), (226, "3"), (227, "3")]:
        browser.run("const it = document.getElementById('shown'); it.value = arguments[0]; it.dispatchEvent(new Event('input'))", letter)
        same(
            f"exercise 13, after letter {letter}",
            browser.run("return document.querySelector('#inside .scans').textContent").split(" for s")[0],
            f"A scan that lies in this moment gives {scans}",
        )


TESTS = [test_titles, test_stories, test_lessons, test_replays, test_course, test_lecture, test_exercises]
