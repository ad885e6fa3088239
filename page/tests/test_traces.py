"""Tests of traces in the page, for page/test: verdicts, editing, stepping, links, saved files, the Tab key.
Each takes the page, a `same` that compares and a folder."""
import os
import re
import time

import pack
from browser import TOP, example, text_of


def begun(trace):
    """The number of accesses that begin in the lines of a trace."""
    return len(re.findall(r" (read|write) ", trace))


def ring_words(verdict, finding):
    """What the page says of the programs, given the finding of the audit; and the line that it marks, or ""."""
    first, bits = finding.splitlines()[0], verdict.strip()
    line = int(first.split()[2].rstrip(":")) if first.startswith("fault") else 0
    if line == 0:
        return "ring: follows the programs", ""
    if line == 2:
        return "", int(bits.split()[2].rstrip(":")) if bits.startswith("fault") else ""
    if not first.endswith("not of the program"):
        return f"ring: follows the programs up to line {line - 1}", line
    return f"ring: line {line} is not of the program", line


def test_traces(page, same, _):
    for name in pack.names("trace"):
        verdict, trace = example(name + ".verdict"), example(name + ".trace")
        ring, line = ring_words(verdict, example(name + ".finding"))
        page.open(f"example={name}")
        same(f"{name}: verdict", page.title() + "\n", verdict)
        same(f"{name}: both verdicts", page.verdicts(), ["bits: " + verdict.strip(), ring])
        marked = page.browser.run("return [...document.querySelectorAll('#numbers b')].map(it => it.textContent).join()")
        same(f"{name}: line marked", marked, str(line))
        same(f"{name}: accesses", page.count("#picture [data-line]"), begun(trace))
        same(f"{name}: fault drawn", page.count("#picture .flagwords"), int(line != ""))
        same(f"{name}: link", page.hash(), f"#example={name}")
    page.open("example=new_old_inversion")
    same("overlaps", page.count("#picture .clash"), 2)
    same("reads that may return anything", page.count("#picture [data-line].free"), 2)
    page.open("example=plain_path")
    same("no overlap", page.count("#picture .clash, #picture [data-line].free"), 0)


def test_editing(page, same, _):
    page.open("example=new_old_inversion")
    text = example("new_old_inversion.trace")
    most = "shape 1 3 1\n" + "P read r0\nP got r0 1\n" * 5000
    cases = [
        (text[:-2] + "1\n", "fault: line 9: not permitted"),
        (text.replace("C got s0 1", "C got s0 0"), "lawful"),
        ("hello", "refused: trace line 1 is not a line of the format"),
        ("", "refused: trace line 1 is not a line of the format"),
        ("shape 1 3 1", "refused: trace line 1 is not a line of the format"),
        ("shape 1 3 1\n", "lawful"),
        ("shape 0 3 1\n", "refused: capacity must be from 1 to 64"),
        ("shape 1 2 1\n", "refused: modulus must be from capacity + batch + 1 to 256"),
        ("shape 1 3 65\n", "refused: width must be from 1 to 64"),
        ("shape 1 3 1 2\n", "refused: batch must be from 1 to capacity"),
        ("shape 3 7 1 3\nP read r0\nP got r0 1\n", "lawful"),
        ("shape 3 7 1 1 3\nP read r0\nP got r0 1\n", "lawful"),
        ("shape 3 7 1 1 4\n", "refused: take batch must be from 1 to capacity"),
        ("shape 3 6 1 2 3\n", "refused: modulus must be from capacity + the larger batch + 1 to 256"),
        ("shape 3 7 1 1 1\n", "refused: trace line 1 is not a line of the format"),
        ("shape 64 256 64\nP write c63.63 1\nC read c63.63\nC got c63.63 0\n", "lawful"),
        ("shape 1 3 1\nP write s9 0\n", "refused: trace line 2 is not a line of the format"),
        ("shape 1 3 1\nP wrote s0\n", "fault: line 2: out of turn"),
        ("shape 1 3 1\nP read r0\nP got r1 0\n", "fault: line 3: out of turn"),
        ("shape 1 3 1\n<img src=x onerror=document.title=1>\n", "refused: trace line 2 is not a line of the format"),
        ("shape 1 3 1\n\u00e9\U0001f600\n", "refused: trace line 2 is not a line of the format"),
        (most, "lawful"),
        (most + "P read r0\n", "refused: trace has more than the 10000 events that this page has room for"),
    ]
    for text, words in cases:
        page.write(text)
        same(f"edited to {text[:60]!r}", page.words(), words)
        same("its link has it", page.linked("trace"), text)
    same("no markup came in", page.count("img, script:not([src]), iframe"), 0)
    page.write("shape 1 3 1\nP wrote s0\n")
    same("an end that ends nothing", page.count("#picture .read.fault"), 1)

    # a long trace with its fault in the middle
    block = "P write s0 0\nC read s0\nC got s0 1\nP wrote s0\n"
    page.write("shape 1 3 1\n" + block * 500 + "C read s0\nC got s0 1\n" + block * 500)
    same("a long trace", page.words(), "fault: line 2003: not permitted")
    same("its window", page.count("#picture .lane"), 24)
    same("its fault is drawn", page.browser.run("return document.querySelector('#picture .flagwords').textContent"), "line 2003: not permitted")
    box = page.browser.run("const a = document.querySelector('#picture .flag').getBoundingClientRect(); return a.top > 50 && a.bottom < innerHeight - 50")
    same("its fault is in view", box, True)
    same("its rows are named", "of 4003" in page.browser.run("return document.querySelector('#picture .title').textContent"), True)


def test_stepping(page, same, _):
    text = example("stale_read_after_inversion.trace")
    last = len(text.splitlines()) - 1

    def place():
        return page.browser.run("return document.getElementById('place').textContent")

    page.open("example=stale_read_after_inversion")
    same("all is shown", place(), f"line {last + 1} / {last + 1}")
    for shown in range(last - 1, -1, -1):
        page.browser.press("left")
        want = [f"line {shown + 1} / {last + 1}", "lawful", f"#example=stale_read_after_inversion&shown={shown}"]
        same(f"left to {shown}", [place(), page.title(), page.hash()], want)
        same(f"accesses of {shown}", page.count("#picture [data-line]"), begun("\n".join(text.splitlines()[: shown + 1])))
    page.browser.press("left")
    same("left stops at the first line", place(), f"line 1 / {last + 1}")
    page.browser.press("right", "right")
    same("two right", place(), f"line 3 / {last + 1}")
    page.browser.press("end")
    same("end", [place(), page.title()], [f"line {last + 1} / {last + 1}", "fault: line 9: not permitted"])
    page.browser.press("home")
    same("home", place(), f"line 1 / {last + 1}")
    page.click("on")
    same("the button on", place(), f"line 2 / {last + 1}")
    page.click("back")
    same("the button back", place(), f"line 1 / {last + 1}")
    page.browser.run("document.getElementById('shown').focus()")
    page.browser.press("right", "right", "right")
    same("the slider", place(), f"line 4 / {last + 1}")
    page.browser.run("document.getElementById('text').focus()")
    page.browser.press("right")
    same("the editor keeps its keys", place(), f"line 4 / {last + 1}")
    page.browser.press("escape", "right")
    same("Escape leaves it", place(), f"line 5 / {last + 1}")
    page.browser.run("document.getElementById('text').focus()")
    page.browser.run("document.querySelector('#picture [data-line=\"3\"]').dispatchEvent(new MouseEvent('click', {bubbles: true}))")
    got = page.browser.run("const it = document.getElementById('text'); return it.value.slice(it.selectionStart, it.selectionEnd)")
    same("a bar that is clicked", [got, place()], [text.splitlines()[2], f"line 3 / {last + 1}"])
    page.browser.press("right")
    same("and the arrows go on", place(), f"line 4 / {last + 1}")
    for id in ("waves", "example"):
        page.browser.run("document.getElementById(arguments[0]).focus()", id)
        page.browser.press("left", "right", "right")
    same(
        "in a list, too",
        [place(), page.browser.run("return document.getElementById('example').value")],
        [f"line 6 / {last + 1}", "trace stale_read_after_inversion"],
    )
    page.browser.run("const it = document.getElementById('waves'); it.focus(); it.dispatchEvent(new Event('change'))")
    same("choosing from the list gives up the focus", page.browser.run("return document.activeElement === document.body"), True)
    page.open("example=no_such_example")
    same("an unknown name", page.browser.run("return document.getElementById('note').textContent"), "There is no example no_such_example of this kind.")


def test_links(page, same, _):
    dark = "return getComputedStyle(document.querySelector('#picture .bg')).fill + getComputedStyle(document.body).backgroundColor"
    black, white = "rgb(17, 21, 26)" * 2, "rgb(255, 255, 255)" * 2
    page.open("example=new_old_inversion&shown=3&theme=dark&bits=all")
    same("dark", page.browser.run(dark), black)
    same("a link comes back", page.hash(), "#example=new_old_inversion&shown=3&theme=dark&bits=all")
    same("its moment", page.browser.run("return document.getElementById('shown').value"), "3")
    page.click("theme")
    same("light by the button", [page.browser.run(dark), page.hash()], [white, "#example=new_old_inversion&shown=3&theme=light&bits=all"])
    page.browser.run("const it = document.getElementById('waves'); it.value = 'none'; it.dispatchEvent(new Event('change'))")
    same("no waves", [page.count("#picture .wavename"), page.hash()], [0, "#example=new_old_inversion&shown=3&theme=light&bits=none"])
    page.browser.run("location.hash = '#script=plain_path&shown=5'")
    page.browser.until("a link that is followed", "return document.title === 'played 5 of 18 letters'")
    same("its mode", page.browser.run("return document.querySelector('input[name=mode]:checked').value"), "script")
    page.open("example=plain_path&bits=all")
    same("waves of all bits", page.count("#picture .wavename"), 5)
    page.open("example=%3Cimg%20src=x%3E&theme=red&bits=%22&shown=-1")
    same("a link to nothing", [page.title(), page.hash(), page.count("img")], ["lawful", "#example=new_old_inversion", 0])
    for scheme, want in [("dark", black), ("light", white)]:
        features = [{"name": "prefers-color-scheme", "value": scheme}]
        page.browser.devtools("Emulation.setEmulatedMedia", {"features": features})
        same(f"a system set to {scheme}", page.browser.run(dark), want)
    page.browser.devtools("Emulation.setEmulatedMedia", {"features": []})


def test_saving(page, same, downloads):
    pictures = sorted(os.path.splitext(file)[0] for file in os.listdir(os.path.join(TOP, "docs", "pictures")))
    same("docs/pictures", pictures, ["empty_while_inside", "new_old_inversion", "plain_path", "small_modulus", "stale_item", "stale_read_after_inversion"])
    kinds = {"empty_while_inside": "calls", "small_modulus": "script"}
    for name in pictures:
        page.open(f"{kinds.get(name, 'example')}={name}")
        page.click("save")
        path = os.path.join(downloads, name + ".svg")
        for _ in range(100):
            if os.path.exists(path) and not any(it.endswith(".crdownload") for it in os.listdir(downloads)):
                break
            time.sleep(0.05)
        same(f"{name}.svg was saved", os.path.exists(path), True)
        shipped = os.path.join(TOP, "docs", "pictures", name + ".svg")
        same(f"docs/pictures/{name}.svg", os.path.exists(path) and text_of(path) == text_of(shipped), True)
    page.browser.go("file://" + os.path.join(TOP, "docs", "pictures", "new_old_inversion.svg"))
    same("a picture opened on its own", page.browser.run("return getComputedStyle(document.querySelector('.bg')).fill"), "rgb(255, 255, 255)")


def test_keyboard(page, same, _):
    """Each control can be reached by the Tab key and has a name."""
    page.open("script=plain_path")
    page.browser.run("document.activeElement.blur()")
    seen = []
    for _ in range(60):
        page.browser.press("tab")
        id_ = page.browser.run("const it = document.activeElement; return it.id || it.name || it.localName")
        if id_ == "body" or len(seen) > 2 and id_ == seen[0]:
            break
        seen.append(id_)
        same(f"{id_} has a name", bool(page.browser.name_of_focus().strip()), True)
        outline = page.browser.run("const it = document.activeElement, of = it.name === 'mode' ? it.parentNode : it; return getComputedStyle(of).outlineStyle")
        same(f"{id_} shows its focus", outline != "none", True)
    missing = {"example", "back", "shown", "on", "waves", "open", "save", "theme", "ask", "previous", "next", "question", "mode", "text", "astrace", "g"} - set(
        seen
    )
    same("controls that the Tab key does not reach", sorted(missing), [])


TESTS = [test_traces, test_editing, test_stepping, test_links, test_keyboard, test_saving]
