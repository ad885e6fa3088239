"""For tools/counts: which statements of lemmas in proofs/, and which definitions of specs/, occur more than once.

Two statements are the same if they differ only in the names of variables, in whether a binder is written `(x : A)` or `{x : A}` or unnamed, and
in the names by which a file imports. The parameters of the modules around a lemma belong to its statement if it names any of them or of
their other items. Answers to goals, invariants of loops, fields of records, abbreviations and helpers after `where` are not statements.
Two definitions are the same if their signatures and their cases are.

A statement that has to be repeated says so in the line directly above it, in a comment that begins `-- again, ` with the reason."""
import collections
import re

MARK = "-- again, "
TOKEN = re.compile(r"[(){}\[\],;]|[^\s(){}\[\],;]+")
WORDS = re.compile(r"(?:(?:pub|abbrev|unfoldable) )*")
MODULE = re.compile(r"(?:pub )?module \S+(.*)")
IMPORT = re.compile(r"(pub )?use ([^\s{]+?)(?:\.\{([^}]*)\}|(?: as (\S+))?)$")
RELATIONS = {"≡", "≢", "≤", "<", "¬", "⊥", "⊎"}
CLOSING = {"(": ")", "{": "}", "[": "]"}


def parsed(text):
    """Returns the words of a term as a list, in which each parenthesized part is a list of its own."""
    stack = [[]]
    for token in TOKEN.findall(text):
        if token in CLOSING:
            stack.append([token])
        elif token in CLOSING.values():
            inner = stack.pop()
            stack[-1].append(inner)
        else:
            stack[-1].append(token)
    return stack[0]


def words_of(tree):
    """Yields the words of such a list."""
    for each in tree:
        yield from words_of(each[1:]) if isinstance(each, list) else [each]


def bound_by(each):
    """Returns the names that `(x y : A)` binds, and None for anything else."""
    if isinstance(each, list) and each[0] in "({" and ":" in each:
        names = each[1 : each.index(":")]
        return names if all(isinstance(name, str) for name in names) else None
    return None


class Scope:
    """A module within a file: its parameters and those of the modules around it, and the names of these and of its items."""

    def __init__(self, depth, outer=None, parameters=""):
        self.depth, self.outer = depth, outer
        self.parameters = f"{outer.parameters} {parameters}" if outer else ""
        self.names = {name for each in parsed(parameters) for name in bound_by(each) or []}

    def all_names(self):
        return self.names | self.outer.all_names() if self.outer else set()


class Declared:
    """A signature, its place, and its cases."""

    def __init__(self, file, line, name, scope, signature, is_abbreviation, is_marked):
        self.file, self.line, self.name, self.scope, self.signature = file, line, name, scope, signature
        self.is_abbreviation, self.is_marked, self.cases = is_abbreviation, is_marked, []

    def place(self):
        return f"{self.file.path}:{self.line} {self.name}"

    def parameters(self):
        """Returns the parameters of the modules around it if it names one of them or of their other items."""
        heads = {word.partition(".")[0] for text in [self.signature, *self.cases] for word in TOKEN.findall(text)}
        return self.scope.parameters if heads & (self.scope.all_names() - {self.name}) else ""


class File:
    """The imports and declarations of a file of specs/ or proofs/."""

    def __init__(self, path, lines):
        self.path = path
        _, self.crate, *parts = path.removesuffix(".antt").split("/")
        self.name = ".".join(["Rattle", self.crate, *parts])
        self.imports, self.handed_up, self.own, self.declared = {}, {}, set(), []
        self.read(lines)

    def read(self, lines):
        """Reads item by item, each with everything indented below it."""
        scopes, at = [Scope(0)], 0
        while at < len(lines):
            line, start = lines[at].rstrip(), at
            depth = len(line) - len(line.lstrip())
            at += 1
            if not line or line.lstrip().startswith("--"):
                continue
            while depth < scopes[-1].depth:
                scopes.pop()
            said, is_module = [line.strip()], MODULE.match(line.strip())
            while at < len(lines) and goes_on(lines[at], depth) and not (is_module and said[-1].endswith("where")):
                said += [lines[at].strip()] if not lines[at].lstrip().startswith("--") else []
                at += 1
            text = " ".join(filter(None, said))
            if is_module:
                scopes.append(Scope(depth + 2, scopes[-1], MODULE.match(text)[1].removesuffix("where")))
            elif depth == scopes[-1].depth:
                self.item(text, scopes[-1], start + 1, start > 0 and lines[start - 1].lstrip().startswith(MARK))

    def item(self, text, scope, line, is_marked):
        """Keeps an import, a signature, or a case of the last one."""
        if IMPORT.match(text):
            return self.import_of(*IMPORT.match(text).groups())
        before = WORDS.match(text)[0]
        name, _, rest = text[len(before) :].partition(" ")
        if name in ("record", "data"):
            self.own.add(re.match(r"[^\s:({]+", rest)[0])
            self.own.update(re.findall(r"(\S+) :", rest) if name == "data" else [])
        elif rest.startswith(": "):
            self.own.add(name)
            scope.names.add(name)
            self.declared.append(Declared(self, line, name, scope, rest[2:], "abbrev" in before, is_marked))
        elif self.declared and name == self.declared[-1].name:
            self.declared[-1].cases.append(rest)
        return None

    def import_of(self, is_pub, module, names, alias):
        """Records what each name of an import means."""
        if names is None:
            found = {alias or module.split(".")[-1]: module}
        else:
            pairs = [each.strip().split(" as ") for each in names.split(",") if each.strip()]
            found = {pair[-1]: f"{module}.{pair[0]}" for pair in pairs}
        self.imports.update(found)
        self.handed_up.update(found if is_pub else {})


def goes_on(line, depth):
    """Returns whether the line belongs to the item above it, which begins at this depth."""
    return not line.strip() or line.startswith(" " * (depth + 1)) or line.lstrip()[0] in ")}]"


class House:
    """All files, by module name."""

    def __init__(self, files):
        self.files = {file.name: file for file in files}
        self.crates = {file.crate for file in files}

    def meaning(self, file, head, fields):
        """Returns the full name of what a word means in a file; for the kit's items only the last part."""
        if head in file.own:
            return ".".join([file.name, head, *fields])
        whole = file.imports.get(head, head)
        while True:
            module, _, name = whole.rpartition(".")
            if module not in self.files or name not in self.files[module].handed_up:
                break
            whole = self.files[module].handed_up[name]
        if whole in self.files and fields:
            return self.meaning(self.files[whole], fields[0], fields[1:])
        is_ours = whole.startswith("Rattle.") and whole.split(".")[1] in self.crates
        return ".".join([whole if is_ours else whole.split(".")[-1], *fields])

    def form(self, each):
        """Returns the normal form of a statement or of a definition, which is the same wherever it occurs; None for anything else."""
        if "/specs/" in each.file.path:
            return repr(Form(self, each).definition()) if each.cases else None
        tree = parsed(f"{each.parameters()} {each.signature}")
        if each.is_abbreviation or each.file.path.endswith("/Invariants.antt") or "goal." in each.signature or tree[-2:-1] == ["Type"]:
            return None
        form = Form(self, each)
        said = form.term(tree, {}, 0)
        return repr(said) if form.names_values or RELATIONS & set(words_of(tree)) else None


class Form:
    """Terms in which each variable is the number of variables bound around it, and each other word is its full name."""

    def __init__(self, house, declared):
        self.house, self.declared, self.names_values = house, declared, False

    def definition(self):
        """Returns the signature and the cases."""
        file, said = self.declared.file, [self.term(parsed(self.declared.signature), {}, 0)]
        for case in self.declared.cases:
            tree = parsed(case)
            patterns = tree[: tree.index("=")]
            names = [it for it in words_of(patterns) if re.match(r"[^\W\d]", it) and it not in file.own and it not in file.imports]
            scope = {name: (f"v{at}", False) for at, name in enumerate(names)}
            said.append((self.term(patterns, scope, 0), self.term(tree[len(patterns) :], scope, len(names))))
        return said

    def word(self, word, scope):
        head, *fields = re.split(r"(?<=[^.])\.(?=[^.])", word)
        if head not in scope:
            return "self" if head == self.declared.name else self.house.meaning(self.declared.file, head, fields)
        number, is_type = scope[head]
        self.names_values = self.names_values or not is_type
        return ".".join([number, *fields])

    def term(self, tree, outer, bound):
        """Returns the form of a term; `outer` has the variables bound around it, by name, and `bound` is their number."""
        scope, said, at = dict(outer), [], 0
        while at < len(tree):
            each = tree[at]
            at += 1
            if bound_by(each):
                kind = self.term(each[each.index(":") + 1 :], scope, bound)
                for name in bound_by(each):
                    scope[name] = f"v{bound}", kind[:1] == ["Type"]
                    bound += 1
                    said += [kind, "→"]
                at += tree[at : at + 1] == ["→"]
            elif isinstance(each, list):
                said.append([each[0], *self.term(each[1:], scope, bound)])
            elif each == "→":
                start = max((i + 1 for i, it in enumerate(said) if it == "→"), default=0)
                said[start:] = [said[start:], "→"]
                bound += 1
            elif each in ("λ", "let"):
                said.append(each)
                while at < len(tree) and isinstance(tree[at], str) and tree[at] not in (":", "=", "."):
                    scope[tree[at].rstrip(".")] = f"v{bound}", False
                    bound += 1
                    at += 1
                    if tree[at - 1].endswith("."):
                        break
            else:
                said.append(self.word(each, scope))
        return said


def again(all_files):
    """Returns what occurs more than once, each as its places except those that say why."""
    files = [File(path, lines) for path, lines in all_files.items() if path.endswith(".antt")]
    house, found = House(files), collections.defaultdict(list)
    for each in (it for file in files for it in file.declared):
        form = None if each.is_marked else house.form(each)
        if form:
            found[form].append(each)
    return [places for places in found.values() if len(places) > 1]
