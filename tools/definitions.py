"""Reads what a promise is made of: the definitions of crates/*/specs, the structs and enums of the code that they speak of, and the
contracts of functions. Used by tools/book, tools/evidence and tests/scripts/promises.py. It reads Rattle and antt by their layout: a definition
begins at a line that is not indented and declares a name, its comment stands right above it, and its clauses follow.
"""
import os
import re

MODULE = re.compile(r"Rattle\.(?!(?:core|std)\.)(\w+)\.specs\.([\w.'-]+)")  # of this repository: the kit's are those of core and std
HEAD = re.compile(r"(?:unfoldable |abbrev )*(?:pub )?(?:(record|data) )?([^\s:({]+)(?: .*)? :(?: |$)")
WORD = r"[^\s(){};,.λ⌜⌝←⟦⟧]+"
TOKEN = re.compile(rf"(?P<comment>--[^\n]*|//[^\n]*)|(?P<space>\s+)|(?P<field>(?<![^\s)])\.{WORD})|(?P<word>{WORD}(?:\.{WORD})*)|(?P<sign>.)")


def declares(line):
    """The match of a line that declares a name; a clause of an operator, as `l ! i = ..`, declares none."""
    head = HEAD.match(line)
    return head if head and " = " not in head.group() else None


def heading(line):
    """The title of a comment line `-- ==== title`, and what follows it: a long line has more than its title, behind a colon."""
    title = line[len("-- ===="):].strip()
    return tuple(title.split(": ", 1)) if len(title) > 70 and ": " in title else (title, "")


class Definition:
    """A definition, record or data type of specs/, or a struct or enum of the code that specs/ cites."""

    def __init__(self, crate, module, name, kind, path, line, comment):
        self.crate, self.module, self.name, self.kind = crate, module, name, kind
        self.path, self.line, self.comment, self.lines = path, line, comment, []
        self.fields, self.constructors = [], []

    @property
    def key(self):
        return self.crate, self.module, self.name

    @property
    def inner(self):
        return self.module.startswith("Inner.")

    @property
    def text(self):
        return "\n".join(self.lines)

    def __repr__(self):
        return f"{self.path}:{self.name}"


class Contract:
    """A function with its comment, parameters and clauses, without its body."""

    def __init__(self, crate, name, path, line, comment, text, exported):
        self.crate, self.name, self.path, self.line, self.comment = crate, name, path, line, comment
        self.text, self.exported = text, exported

    def hidden(self):
        """The names that hide others of the same spelling in its clauses: those of its parameters, and `result`."""
        head = re.split(r"(?m)^\s*(?:requires|ensures|ghost)\b", self.text)[0]
        return {"result", *re.findall(r"[(,]\s*(?:mut )?(\w+):(?!:)", head)}

    def clauses(self, word):
        return len(re.findall(rf"(?m)^\s*{word}\b", self.text))


def imports(text):
    """What the `use` lines of a text bring: a name as ('own', (crate, module, name)), an `as` name as ('module', (crate, module)), and a
    name of the kit as ('kit', module, name). In the name of an operator `◌` marks an argument's place."""
    found = {}
    for module, names in re.findall(r"(?m)^(?:pub |ghost )*use (\S+?)\.\{([^}]*)\};?$", text):
        place = MODULE.fullmatch(module)
        for name in (n.strip() for n in names.split(",")):
            sign = name.strip("◌") or name  # `◌+◌` is used as `+`
            if place:
                found[sign] = ("own", (place[1], place[2], name))
            elif name:
                found[sign] = ("kit", module, name)
    for module, short in re.findall(r"(?m)^(?:ghost )?use (\S+) as (\w+);?$", text):
        place = MODULE.fullmatch(module)
        if place:
            found[short] = ("module", (place[1], place[2]))
    return found


class House:
    """All definitions and contracts below a folder that has crates/."""

    def __init__(self, root="."):
        self.root = root
        self.definitions = {}   # (crate, module, name): Definition
        self.heads = {}         # (crate, module): the comment at the file's top
        self.brought = {}       # (crate, module) or path: imports
        self.contracts = {}     # (path, name): Contract
        self._pieces = {}
        for crate in sorted(os.listdir(os.path.join(root, "crates"))):
            self._read_specs(crate)
            self._read_code(crate)

    # ---- reading

    def _files(self, crate, folder, ending):
        top = os.path.join("crates", crate, folder)
        for here, _, files in sorted(os.walk(os.path.join(self.root, top))):
            for file in sorted(files):
                if file.endswith(ending):
                    yield os.path.relpath(os.path.join(here, file), self.root), os.path.relpath(os.path.join(here, file), os.path.join(self.root, top))

    def _text(self, path):
        with open(os.path.join(self.root, path), encoding="utf-8") as file:
            return file.read()

    def _read_specs(self, crate):
        for path, relative in self._files(crate, "specs", ".antt"):
            module = relative[:-len(".antt")].replace("/", ".")
            if module in ("Lib", "Inner"):
                continue
            text = self._text(path)
            self.brought[crate, module] = imports(re.sub(r"--[^\n]*", "", text))
            comment, current = [], None
            for number, line in enumerate(text.split("\n"), 1):
                if line.startswith("-- ===="):
                    rest = heading(line)[1]
                    comment = ["-- " + rest] if rest else []
                elif line.startswith("--"):
                    comment.append(line)
                elif re.match(r"(pub )?(use|mod) |infix[lr]? ", line):
                    if comment:
                        self.heads.setdefault((crate, module), comment)
                    comment = []
                elif not line.strip():
                    if comment and not comment[0].startswith("-- ----"):
                        self.heads.setdefault((crate, module), comment)
                    comment = []
                elif not line.startswith(" "):
                    head = declares(line)
                    if current is None or head and head[2] != current.name:
                        name = head[2] if head else line.split()[0]
                        current = Definition(crate, module, name, (head and head[1]) or "definition", path, number, comment)
                        self.definitions[current.key] = current
                    current.lines.append(line)
                    comment = []
                elif current:
                    current.lines.append(line)
                    member = re.match(r"  (?:pub )?([^\s:({]+)(?: [^\s:({]+)* :(?: |$)", line)
                    if member and current.kind == "record":
                        current.fields.append(member[1])
                    elif member and current.kind == "data":
                        current.constructors.append(member[1])

    def _read_code(self, crate):
        for path, relative in self._files(crate, "src", ".rt"):
            text = self._text(path)
            self.brought[path] = imports(text)
            lines = text.split("\n")
            for number, line in enumerate(lines):
                above = number
                while above and re.match(r"\s*(//|#\[)", lines[above - 1]):
                    above -= 1
                comment = [c.strip() for c in lines[above:number] if c.strip().startswith("//")]
                struct = re.match(r"pub (struct|enum) (\w+)", line)
                function = re.match(r"\s*(?:pub )?(?:extern \"C\" )?fn (\w+)", line)
                if struct:
                    end = number
                    if "{" in line and "}" not in line:
                        while not lines[end].startswith("}"):
                            end += 1
                    module = "declared." + struct[2]
                    item = Definition(crate, module, struct[2], struct[1], path, number + 1, comment)
                    item.lines = [l for l in lines[number:end + 1]]
                    names = re.findall(r"(?m)^\s+(?:pub )?(\w+)[:(,]", "\n".join(item.lines[1:]))
                    if struct[1] == "struct":
                        item.fields = names or re.findall(r"pub (\w+):", item.text)
                    else:
                        item.constructors = names
                    self.definitions[item.key] = item
                    self.brought[crate, module] = {}
                elif function:
                    end = number
                    while end < len(lines) and lines[end].strip() != "{" and not re.search(r"\)(?: -> [^{}]+)? \{$", lines[end]):
                        end += 1
                    body = lines[number:end + 1]
                    if body and body[-1].strip() == "{":
                        body = body[:-1]
                    self.contracts[path, function[1]] = Contract(
                        crate, function[1], path, number + 1, comment, "\n".join(body).rstrip(" {"), 'extern "C"' in line)

    # ---- names

    def resolved(self, key):
        """The definition behind a name, through modules that pass it on and the `declared` forms of the code's types; or None."""
        seen = set()
        while key is not None and key not in self.definitions and key not in seen:
            seen.add(key)
            crate, module, name = key
            parts = module.split(".")
            if parts[0] == "declared":
                # declared.Name, declared.file.Name, declared.Name.TheVariants: the code's own type
                owner = parts[-2] if parts[-1] == "TheVariants" else parts[-1]
                key = (crate, "declared." + owner, owner)
            else:
                owner = next((d for d in self.definitions.values() if (d.crate, d.module) == (crate, module) and name in d.constructors), None)
                if owner:
                    return owner
                onward = self.brought.get((crate, module), {}).get(name)
                key = onward[1] if onward and onward[0] == "own" else None
        return self.definitions.get(key)

    def bound(self, text):
        """Names that a text binds itself: parameters, members of binders, patterns."""
        names = set()
        for group in re.findall(r"[({]([^(){}:=]+) :(?: |\n)", text):
            names.update(group.split())
        for group in re.findall(r"λ ([^.()]+)\.", text):
            names.update(group.split())
        for group in re.findall(r"λ((?: \([^()]*\))+)\.", text):
            names.update(re.findall(r"[^\s():]+", group.split(":")[0]))
        return names

    def pieces(self, text, place, name=None, members=()):
        """The text as pieces (kind, text, target): names that stand for a definition have it as target, names of the kit have the module's
        name, fields are marked. `place` is (crate, module) or the path of code."""
        brought = self.brought.get(place, {})
        local = set(members)
        for line in text.split("\n"):
            if name and re.match(rf"\s*{re.escape(name)} [^:]*=", line):
                local.update(w for w in re.findall(WORD, line.split(" = ")[0])[1:] if not self._constructor(w, brought, place))
        local |= self.bound(text)
        depth = 0  # of braces: in a record that is given by its parts, the word before `=` is a part
        for match in TOKEN.finditer(text):
            kind, word = match.lastgroup, match.group()
            depth += (word == "{") - (word == "}")
            if kind == "field":
                yield "field", word, None
            elif kind == "word" and depth and re.match(r"\s*=\s", text[match.end():]):
                yield "part", word, None
            elif kind == "word":
                first, *fields = self.parted(word, brought)
                yield self._word(first, brought, place, local, name)
                for part in fields:
                    yield "field", part, None
            else:
                yield kind, word, None

    def parted(self, word, brought):
        """A word with dots as a name, with its module if that is brought, and the fields behind it: `now` of `x.now`."""
        head, *rest = word.split(".")
        own = 1 if rest and brought.get(head, ("",))[0] == "module" else 0
        return [".".join([head, *rest[:own]]), *("." + part for part in rest[own:])]

    def _constructor(self, word, brought, place):
        """Whether a word of a pattern is a form of a data type, and no name that the pattern binds."""
        target = self._target(word, brought, place)
        return isinstance(target, tuple) or bool(target and target.kind in ("data", "enum"))

    def _target(self, word, brought, place):
        bare = word.strip("«»")
        if bare in brought:
            found = brought[bare]
            if found[0] == "own":
                return self.resolved(found[1])
            if found[0] == "kit":
                return found
        if isinstance(place, tuple):
            for name in (bare, f"◌{bare}◌"):
                if place + (name,) in self.definitions:
                    return self.definitions[place + (name,)]
            for item in self.definitions.values():
                if item.kind == "data" and (item.crate, item.module) == place and (bare in item.constructors or f"◌{bare}◌" in item.constructors):
                    return item
        return None

    def _word(self, word, brought, place, local, name):
        if "." in word:
            head, _, rest = word.partition(".")
            found = brought.get(head)
            if found and found[0] == "module":
                target = self.resolved(found[1] + (rest,))
                if target:
                    return "word", rest, target
            return "word", word, None
        if word in local and word != name:
            return "bound", word, None
        target = self._target(word, brought, place)
        if isinstance(target, tuple):
            return "kit", word, target
        return "word", word, target

    def cites(self, item):
        """The definitions that a definition or contract cites, in the order of its text."""
        out = []
        for _, _, target in self.shown(item):
            if isinstance(target, Definition) and target is not item and target not in out:
                out.append(target)
        return out

    def _type(self, word, item):
        """The struct or enum that a word of the code names: the crate's own, or one that the file takes by `use`."""
        if word == item.name or word in getattr(item, "constructors", ()):
            return None
        own = next((d for d in self.definitions.values() if d.kind in ("struct", "enum") and (d.crate, d.name) == (item.crate, word)), None)
        named = re.escape(word)
        taken = re.search(rf"(?m)^(?:pub )?use (\w+)::(?:\w+::)*(?:{named}|{{[^}}]*\b{named}\b[^}}]*}});$", self._text(item.path)) \
            if not own and word[:1].isupper() else None
        return own or (self.definitions.get((taken[1], "declared." + word, word)) if taken else None)

    def shown(self, item):
        """The pieces of a definition's or contract's text, for showing it."""
        if item in self._pieces:
            return self._pieces[item]
        if isinstance(item, Contract):
            pieces = list(self.pieces(item.text, item.path, members=item.hidden()))
        elif item.kind in ("struct", "enum"):
            pieces = [(m.lastgroup, m.group(), None) for m in TOKEN.finditer(item.text)]
        else:
            pieces = list(self.pieces(item.text, (item.crate, item.module), item.name, item.fields))
        if isinstance(item, Contract) or item.kind in ("struct", "enum"):
            pieces = [(kind, word, target or (self._type(word, item) if kind in ("word", "bound") else None)) for kind, word, target in pieces]
        if isinstance(item, Contract):  # the function's own name stands for itself behind `fn`, and in clauses for what it has there
            own = next((k for k, (kind, word, _) in enumerate(pieces) if word == item.name and kind != "comment"), None)
            pieces = [(kind, word, None if k == own else target) for k, (kind, word, target) in enumerate(pieces)]
        self._pieces[item] = pieces
        return pieces


ROW = re.compile(r"\| *(\S[^|]*?) *\|(.*)\|\s*$")
CITED = re.compile(r"`(crates/[^:`]+):([^`]+)`")


class Promise:
    """A row of docs/PROMISES.md."""

    def __init__(self, chapter, number, words, mark, said, proof, line):
        self.chapter, self.number, self.words, self.mark = chapter, number, words, mark
        self.said, self.proof, self.line = said, proof, line

    def cited(self, text):
        return CITED.findall(text)


def promises(page):
    """The chapters of docs/PROMISES.md, each (level, title, text before its table, its rows)."""
    chapters, current = [], None
    for number, line in enumerate(page.split("\n"), 1):
        head = re.match(r"(#+) (.*)", line)
        if head:
            current = [len(head[1]), head[2], [], []]
            chapters.append(current)
            continue
        if current is None:
            continue
        cells = [c.strip().replace("\0", "|") for c in line.replace("\\|", "\0").strip().strip("|").split("|")] if line.startswith("|") else []
        if len(cells) != 5:
            current[2].append(line)
        elif cells[0] != "no." and not re.fullmatch(r"-+", cells[0]):
            current[3].append(Promise(current[1], cells[0], cells[1], cells[2], cells[3], cells[4], number))
    return [(level, title, "\n".join(text).strip(), rows) for level, title, text, rows in chapters]
