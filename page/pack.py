#!/usr/bin/env python3
"""Writes the page as one file that needs no server, page/lamport_ring.html, and the files that page/src/index.html requests from a server, page/src/made.

    page/pack.py            with the module that page/build made, or else with that of the page that is there
    page/pack.py --check    writes nothing; says how the page that is there differs from what these sources give, and what a lesson lacks
"""
import base64
import hashlib
import json
import os
import re
import shutil
import subprocess
import sys

PAGE = os.path.dirname(os.path.abspath(__file__))
SOURCES = os.path.join(PAGE, "src")
MADE = os.path.join(SOURCES, "made")
TOP = os.path.dirname(PAGE)
EXAMPLES = os.path.join(TOP, "examples")
SHIPPED = "lamport_ring.html"
FIRST = ["new_old_inversion", "plain_path", "plain", "unary", "bit_always_written"]  # the first example of each kind of text
LEFT_OUT = {  # scripts with too many events or letters for a picture; an item that is not a JavaScript number
    "a_million_idle_letters",
    "a_million_letters_full",
    "items_999",
    "largest_shape",
}
STYLES = ["page", "large", "small", "print"]
MAIN = "main.js"  # the script that starts the page
WORKERS = ["worker.js", "lab_worker.js"]  # the scripts that start its workers
IMPORTED = re.compile(r'^import \{ ?([^}]*?) ?\} from "([^"]+)";\n', flags=re.M)
EXPORTED = re.compile(r"^export ((?:async )?function\*? |const |class )([\w$]+)", flags=re.M)
# The kinds of a text, and the suffixes of their files.
MODES = {"trace": ".trace", "script": ".json", "calls": ".calls", "register": ".reg", "lab": ".js"}
FOLDERS = {
    "trace": EXAMPLES,
    "script": EXAMPLES,
    "calls": os.path.join(EXAMPLES, "calls"),
    "register": os.path.join(EXAMPLES, "registers"),
    "lab": os.path.join(PAGE, "constructions"),
}
TAUGHT = ["calls", "register"]  # of these kinds the page has only the texts that are lessons
BOUND = re.compile(r"^(// \d+ writes?, \d+ reads?): .*$", flags=re.M)  # the line of a construction with its bound and the result within it
UNTAUGHT = "Constructions"  # the chapter of the constructions that no lesson names
# The first word of each line of a lesson in lessons.txt: `play` is the link of a script that plays its story; a challenge has its goal, a hint and its own story.
PARTS = {"=": "title", ">": "play", "?": "question", "!": "answer", "@": "goal", "~": "hint", ".": "story"}
MADE_OF = re.compile(rb'<meta name="made-of" content="([^"]*)">')


def has(name):
    return os.path.exists(os.path.join(PAGE, name))


def read(name):
    with open(os.path.join(PAGE, name), "rb") as file:
        return file.read()


# ---- the module ----------------------------------------------------------------------------------------------------------


def built():
    """The module that page/build made, and a description of its sources; or None."""
    names = ["src/made/ring_page.wasm", "src/made/ring_page.from"]
    return (read(names[0]), read(names[1]).decode().strip()) if all(map(has, names)) else None


def shipped():
    """The same from the existing page."""
    if not has(SHIPPED):
        return None
    page = read(SHIPPED)
    module, made_of = re.search(rb'^globalThis.ringModule = "([^"]*)"', page, flags=re.M), MADE_OF.search(page)
    return (base64.b64decode(module[1]), made_of[1].decode()) if module and made_of else None


def sources_sum():
    """The checksum of the module's current sources, as page/build computes it."""
    words = '. "$top/tools/building.sh"; export LC_ALL=C; sources_sum $(crates_below ring_page)'
    return subprocess.run(["sh", "-c", words], env={**os.environ, "top": TOP}, check=True, capture_output=True, text=True).stdout.strip()


# ---- the page ------------------------------------------------------------------------------------------------------------


def stories():
    """What examples/README.md says about each example, by (mode, name), as paragraphs; without the drawings, since the page has its own."""
    with open(os.path.join(EXAMPLES, "README.md"), encoding="utf-8") as file:
        text = file.read()
    at, past = text.index("\n## Calls\n"), text.index("\n## Registers\n")
    runs, calls, registers = paragraphs(text[text.index("\n## Scripts\n") : at]), paragraphs(text[at:past]), paragraphs(text[past:])
    # lawful calls are described by their line in the table
    for name, words in re.findall(r"^\| `(\w+)` \| lawful: (.*) \|$", text[at:past], flags=re.M):
        calls[name] = [words[0].upper() + words[1:] + ".", *calls.get(name, [])]
    wrong = {("script", name.removeprefix("wrong/")): runs.pop(name) for name in [*runs] if name.startswith("wrong/")}
    others = {("calls", name): it for name, it in calls.items()} | {("register", name): it for name, it in registers.items()}
    return {**{(mode, name): it for name, it in runs.items() for mode in ("trace", "script")}, **wrong, **others}


def heads():
    """The header comments of the constructions, by name, without the result."""
    lines = {name: re.match(r"(?://.*\n)*", read(f"constructions/{name}.js").decode())[0].splitlines() for name in constructions()}
    return {name: [line.removeprefix("// ") for line in all_ if not BOUND.match(line)] for name, all_ in lines.items()}


def constructions():
    return sorted(it.removesuffix(".js") for it in os.listdir(FOLDERS["lab"]) if it.endswith(".js"))


def paragraphs(text):
    """The paragraphs on each name that is in bold at the start of one."""
    found, names = {}, []
    for part in re.sub(r"^```.*?^```$", "", text, flags=re.M | re.S).split("\n\n"):
        part = " ".join(part.split())
        head = re.match(r"((?:\*\*[\w/]+\*\*(?:, )?)+): ", part)
        if head:
            names = re.findall(r"\*\*([\w/]+)\*\*", head[1])
            part = part[head.end() :]
        elif part.startswith(("#", "|")):
            names = []
        for name in names if part else []:
            found.setdefault(name, []).append(part[0].upper() + part[1:] if head and not re.match("`|[a-z]\\d", part) else part)
    return found


def lesson(said, chapter, mode, name):
    """A lesson without its own words: its title is the name of its example, its story what is said of that."""
    return {
        "chapter": chapter,
        "mode": mode,
        "name": name,
        "title": name.replace("_", " "),
        "story": said.get((mode, name), []),
        "play": "",
        "question": "",
        "answer": "",
    }


def lessons():
    """The lessons in order."""
    return lessons_and_plays()[0]


def lessons_and_plays():
    """The lessons of page/lessons.txt in order, and its scripts, by name; an example or a construction that has no lesson
    there comes last, without a question."""
    said, list_, plays, chapter = stories(), [], {}, ""
    for line in read("lessons.txt").decode().splitlines():
        kind, _, words = line.strip().partition(" ")
        if kind == "#":
            chapter = words
        elif kind in MODES:
            list_.append(lesson(said, chapter, kind, words))
        elif kind == "play":
            name, _, script = words.partition(" ")
            plays[name] = script
            list_.append({**lesson({}, chapter, "script", name), "story": []})
        elif kind == ".":
            list_[-1]["story"].append(words)
        elif kind in PARTS:
            list_[-1][PARTS[kind]] = words
        elif line.strip():
            sys.exit(f"page/lessons.txt: a line begins with none of {', '.join(['#', *MODES, 'play', *PARTS])}: {line}")
    # a construction without a story of its own has its header comment
    for it in list_:
        if it["mode"] == "lab" and not it["story"] and it["name"] in constructions():
            it["story"] = heads()[it["name"]]
    taught = [it["name"] for it in list_ if it["mode"] == "lab"]
    return list_ + [untaught(name) for name in constructions() if name not in taught], plays


def course():
    """The steps of docs/COURSE.md, in order: their minutes, the lesson, what to say, and if it is the law or the commands, the board that shows it."""
    steps, modes = [], {"example": "trace", **{mode: mode for mode in MODES if mode != "trace"}}
    with open(os.path.join(TOP, "docs", "COURSE.md"), encoding="utf-8") as file:
        text = file.read()
    table = re.search(r"^\| Clause \|.*\n\|[-|]*\|\n((?:\|.*\n)*)", text, flags=re.M)[1]
    plain = [[re.sub(r"[`*]", "", cell).strip() for cell in row.strip("|\n").split(" | ")] for row in table.splitlines()]
    before = text[: text.index("\n## The law of the ring")]
    commands = [re.sub("^    ", "", it, flags=re.M).rstrip() for it in re.findall(r"(?:^    .*\n)+", before, flags=re.M)]
    boards = {"the law": {"title": "The law of the ring", "rows": plain}, "the commands": {"title": "Two threads, and a recording", "commands": commands}}
    for minutes, shown, say in re.findall(r"^\| (\d+–\d+) \| (.*?) \| (.*) \|$", text, flags=re.M):
        it = re.fullmatch(r"`#(example|script|calls|register|lab)=(\w+)`(?:, (the law|the commands) below)?", shown)
        if not it:
            sys.exit(f"docs/COURSE.md: the step of {minutes} shows none of the page: {shown}")
        board = {"title": boards[it[3]]["title"], "board": boards[it[3]]} if it[3] else {}
        steps.append({"minutes": minutes, "mode": modes[it[1]], "name": it[2], "say": say, **board})
    return steps


def examples():
    """The files of the examples, and the list of their names; of recorded calls and registers only the lessons. A script of examples/wrong names in
    the page the ring that plays it; a construction does not contain its result there."""
    said, files, (list_, plays) = stories(), {}, lessons_and_plays()
    listed = {**{mode: [] for mode in MODES}, "lessons": list_, "course": course()}
    taught = [(it["mode"], it["name"]) for it in listed["lessons"]]
    for mode, end in MODES.items():
        folder = FOLDERS[mode]
        for file in sorted(os.listdir(folder)):
            name = file.removesuffix(end)
            if name == file or mode == "script" and name in LEFT_OUT or mode in TAUGHT and (mode, name) not in taught:
                continue
            with open(os.path.join(folder, file), "rb") as data:
                text = data.read()
            files[os.path.relpath(os.path.join(folder, file), TOP)] = BOUND.sub(r"\1", text.decode()).encode() if mode == "lab" else text
            listed[mode].append(name)
            if (mode, name) not in taught:
                listed["lessons"].append(lesson(said, "More", mode, name))
        if mode == "script":
            listed[mode] += [*wrong_scripts(files), *plays]
            files.update({f"examples/{name}.json": script.encode() for name, script in plays.items()})
        listed[mode].sort(key=lambda name: (name not in FIRST[:1], name not in FIRST, name))
    for mode, name in taught:
        if name not in listed[mode]:
            sys.exit(f"page/lessons.txt: {mode} {name}: examples/ has none, or the page leaves it out")
    return {"examples.json": (json.dumps(listed, separators=(",", ":"), ensure_ascii=False) + "\n").encode(), **files}


def untaught(name):
    """The lesson of a construction that page/lessons.txt does not name: its header comment."""
    title, *story = heads()[name]
    return {**lesson({}, UNTAUGHT, "lab", name), "title": title, "story": story}


def names(mode):
    """The names of the examples of a mode."""
    return json.loads(examples()["examples.json"])[mode]


def wrong_scripts(files):
    """Adds the scripts of examples/wrong, each with the name of its ring; returns their names."""
    names = []
    for file in sorted(os.listdir(os.path.join(EXAMPLES, "wrong"))):
        name = file.removesuffix(".json")
        if name != file:
            with open(os.path.join(EXAMPLES, "wrong", file), encoding="utf-8") as data:
                script = json.load(data)
            files[f"examples/{file}"] = json.dumps({**script, "wrong": name.split("__")[0].replace("_", "-")}).encode()
            names.append(name)
    return names


def lay_out():
    """Writes the files that index.html requests from a server; returns the module and the description of its sources."""
    made = built() or shipped()
    if not made:
        sys.exit("page/pack.py: there is no module: run page/build")
    shutil.rmtree(MADE, ignore_errors=True)
    workers = {f"{name}.joined": joined(name).encode() for name in WORKERS}
    for name, data in {"ring_page.wasm": made[0], "ring_page.from": made[1].encode() + b"\n", **workers, **examples()}.items():
        os.makedirs(os.path.dirname(os.path.join(MADE, name)), exist_ok=True)
        with open(os.path.join(MADE, name), "wb") as file:
            file.write(data)
    return made


def imports_of(name, text):
    """The imports of a script: the names, and the path in page/src of the script that has them."""
    found = [([*map(str.strip, names.split(","))], os.path.normpath(os.path.join(os.path.dirname(name), path))) for names, path in IMPORTED.findall(text)]
    if len(found) != len(re.findall(r"^import\b", text, flags=re.M)):
        sys.exit(f'page/src/{name}: an import is not of the form import {{ .. }} from "..";')
    return found


def scripts_of(name, found=None, above=()):
    """The texts of the scripts that this one imports, directly or indirectly, each after its own imports; and of this one, last."""
    found = {} if found is None else found
    if name in above:
        sys.exit(f"page/src/{name} imports itself: {' -> '.join([*above, name])}")
    if name not in found:
        text = read(f"src/{name}").decode()
        for names, other in imports_of(name, text):
            scripts_of(other, found, (*above, name))
            missing = {*names} - {it for _, it in EXPORTED.findall(found[other])}
            if missing:
                sys.exit(f"page/src/{name}: page/src/{other} exports no {', '.join(sorted(missing))}")
        found[name] = text
    return found


def joined(name, *others):
    """This script and all that it imports, as one, without lines that are a comment alone and without indents (so no text of several lines may need
    them): each is a function of its own, which returns what it exports, and is called once it is used. The last line uses the script; those of `others`
    are there to be used in its place."""
    parts = ["const scripts = {}, used = {}, use = name => used[name] ??= scripts[name]();"]
    for its, text in {each: text for main in (name, *others) for each, text in scripts_of(main).items()}.items():
        if len(EXPORTED.findall(text)) != len(re.findall(r"^export\b", text, flags=re.M)):
            sys.exit(f"page/src/{its}: an export is neither a function, nor a const, nor a class")
        body = IMPORTED.sub(lambda it, its=its: f'const {{ {it[1]} }} = use("{os.path.normpath(os.path.join(os.path.dirname(its), it[2]))}");\n', text)
        body = re.sub(r"^ +", "", re.sub(r"^ *//.*\n", "", body, flags=re.M), flags=re.M)
        exports = ", ".join(it for _, it in EXPORTED.findall(text))
        parts.append(f'scripts["{its}"] = () => {{\n{EXPORTED.sub(lambda it: it[1] + it[2], body)}return {{ {exports} }};\n}};')
    return "\n".join([*parts, f'use("{name}");']) + "\n"


def unused():
    """The scripts that neither the page nor one of its workers imports."""
    used = {it for main in (MAIN, *WORKERS) for it in scripts_of(main)}
    there = {
        os.path.relpath(os.path.join(folder, it), SOURCES)
        for folder, _, files in os.walk(SOURCES)
        for it in files
        if it.endswith(".js") and not folder.startswith(MADE)
    }
    return sorted(there - used)


def one_file(module, made_of):
    """The page with its style, its scripts in one, and its files; the policy allows these by their hashes and no others."""
    kept = f"globalThis.ringTexts = {json.dumps({name: it.decode() for name, it in sorted(examples().items())}, indent=0, ensure_ascii=False)};\n"
    kept += f"globalThis.ringModule = {json.dumps(base64.b64encode(module).decode())};\n"
    script = joined(MAIN, *WORKERS)
    style = "".join(read(f"src/{name}.css").decode() for name in STYLES)
    assert not any(it in text for it in ("</script", "<!--") for text in (kept, script)) and "</" not in style
    assert not re.search('["<>&]', made_of), made_of

    def hash_of(text):
        return "'sha256-" + base64.b64encode(hashlib.sha256(text.encode()).digest()).decode() + "'"

    page = read("src/index.html").decode()
    for old, new in [
        ("script-src 'self'", f"script-src {hash_of(kept)} {hash_of(script)}"),
        ("connect-src 'self'; ", ""),
        ("style-src 'self'", f"style-src {hash_of(style)}"),
        ('<meta name="made-of" content="">', f'<meta name="made-of" content="{made_of}">'),
        (" From the disk, open lamport_ring.html.", ""),
        ("comes from a server and runs", "runs"),
        ("\n".join(f'<link rel="stylesheet" href="{name}.css">' for name in STYLES), f"<style>{style}</style>"),
        ('<script type="module" src="main.js"></script>', f'<script>{kept}</script>\n<script type="module" id="script">{script}</script>'),
    ]:
        assert page.count(old) == 1, old
        page = page.replace(old, new)
    return page.encode()


def gaps():
    """What the lessons lack, one line each."""
    files = {"story": "examples/README.md", "question": "page/lessons.txt", "answer": "page/lessons.txt"}
    taught = json.loads(examples()["examples.json"])["lessons"]
    return [f"{it['mode']} {it['name']} has no {part} in {file}" for it in taught if it["chapter"] != UNTAUGHT for part, file in files.items() if not it[part]]


def wrongs():
    """What is wrong with the existing page, one line each."""
    if not has(SHIPPED):
        return [f"page/{SHIPPED} is not there: run page/build"]
    present, kept, made = read(SHIPPED), shipped(), built()
    if kept is None:
        return [f"page/{SHIPPED} has no module, or does not say what it was made of: run page/build"]
    lines, module = gaps() + [f"page/src/{it} is imported by none" for it in unused()], kept[0]
    if sources_sum() not in kept[1]:
        lines.append(f"page/{SHIPPED} was made of other crates ({kept[1]}; here {sources_sum()}): run page/build")
    if made and made[0] != module:
        lines.append(f"page/src/made/ring_page.wasm is not the module in page/{SHIPPED}: run page/build, or remove it")
    fresh = one_file(*kept)
    if fresh != present:
        at = next((i for i, (a, b) in enumerate(zip(fresh, present)) if a != b), min(len(fresh), len(present)))
        line = present[:at].count(b"\n")
        lines.append(f"page/{SHIPPED} is not what page/pack.py makes of these sources, from its line {line + 1} on, byte {at}: run page/pack.py")
    return lines


def main():
    if sys.argv[1:] == ["--check"]:
        found = wrongs()
        print("".join(line + "\n" for line in found), end="")
        sys.exit(bool(found))
    page = one_file(*lay_out())
    with open(os.path.join(PAGE, SHIPPED), "wb") as file:
        file.write(page)
    print("scripts left out:", ", ".join(sorted(LEFT_OUT)))
    print(f"page/{SHIPPED}", len(page), "bytes")


if __name__ == "__main__":
    main()
