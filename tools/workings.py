"""The long book, which `tools/book --workings` writes: docs/PROMISES.md row by row, with all definitions. Under a row stand the definitions
that the row names, and before each the definitions that it needs and that were not shown yet. What no row reaches follows. So every
definition of specs/ outside Inner/ appears once, lowest first. The notation (docs/NOTATION.md) is the first chapter.
"""
import html
import os
import re
import textwrap

from definitions import CITED, Contract, Definition, House, promises

MARKS = ("contract", "statement", "form", "tested", "assumed")  # docs/PROMISES.md says what each means
KEYWORDS = {"abbrev", "unfoldable", "pub", "record", "data", "where", "Type", "use", "requires", "ensures", "fn", "extern", "struct", "enum",
            "let", "in", "do", "infix", "infixl", "infixr", "mut", "unfolding"}


# ---- what is shown where

class Book:
    def __init__(self, root):
        self.house = House(root)
        read = lambda path: open(os.path.join(root, path), encoding="utf-8").read()
        self.notation = read("docs/NOTATION.md")
        self.chapters = promises(read("docs/PROMISES.md"))
        self.rows = [row for _, _, _, rows in self.chapters for row in rows]
        self.header = read("include/expander.h")
        self.faults = []
        self.read = read
        self.place()
        self.collect_rest()
        self.collect_inner()
        self.names()

    def item(self, path, name):
        """What a row cites: a definition of specs/ or a contract; a field is cited behind its record, as in `Claim.correlated`."""
        base = name.split(".")[0]
        place = re.fullmatch(r"crates/(\w+)/specs/(.+)\.antt", path)
        if place:
            return self.house.definitions.get((place[1], place[2].replace("/", "."), base))
        return self.house.contracts.get((path, base)) or next(
            (d for d in self.house.definitions.values() if d.path == path and d.name == base), None)

    def named(self, row):
        return [item for path, name in CITED.findall(row.said) for item in [self.item(path, name)] if item]

    def place(self):
        """Each named thing is shown under the last row of document 01 that names it, or else under the first row that does, but not before the
        rows that name what it needs; what a demand names is shown with document 01; what no row names is shown before the first thing that
        needs it."""
        homes = {}
        for index, row in enumerate(self.rows):
            for item in self.named(row):
                homes.setdefault(id(item), (item, []))[1].append(index)
        home = {}  # the row's index; -1 for what a demand names and no row of document 01 does
        demanded = lambda index: self.rows[index].number.startswith("D")
        crates = {item.crate for item, where in homes.values() if any(re.match(r"\d", self.rows[i].number) for i in where)}  # document 01's
        for item, where in homes.values():
            base = [i for i in where if re.match(r"\d", self.rows[i].number)]
            rest = [i for i in where if not demanded(i)]
            home[item] = base[-1] if base else -1 if demanded(where[0]) and (item.crate in crates or not rest) else rest[0]
        part = lambda index: index < 0 or self.rows[index].number[0].isdigit()
        latest = {True: {}, False: {}}  # by part: the last row at which the item, or anything that it needs, is named

        def last(item, base):
            found = latest[base]
            if item not in found:
                found[item] = -1
                own = home[item] if item in home and part(home[item]) == base else -1
                found[item] = max([own] + [last(d, base) for d in self.house.cites(item) if not d.inner])
            return found[item]

        at = {}
        for item, index in home.items():
            index = max(index, last(item, part(index)))
            at.setdefault(index if index >= 0 else homes[id(item)][1][0], []).append(item)
        self.shown = {}                       # definition or contract: the row's index
        self.under = [[] for _ in self.rows]
        for index in range(len(self.rows)):
            for item in at.get(index, []):
                self.show(item, index)

    def show(self, item, index):
        stack = [(item, iter(self.house.cites(item)))]
        entered = {id(item)}
        if item in self.shown or (isinstance(item, Definition) and item.inner):
            return
        while stack:
            top, rest = stack[-1]
            below = next(rest, None)
            if below is None:
                stack.pop()
                if top not in self.shown:
                    self.shown[top] = index
                    self.under[index].append(top)
            elif below not in self.shown and not below.inner and id(below) not in entered:
                entered.add(id(below))
                stack.append((below, iter(self.house.cites(below))))

    def collect_rest(self):
        """Definitions that no row reaches, lowest first."""
        self.under.append([])
        for item in sorted(self.house.definitions.values(), key=lambda d: (d.path, d.line)):
            if item.kind not in ("struct", "enum"):
                self.show(item, len(self.rows))

    def where(self, index):
        """The number of the row under which something is shown."""
        return self.rows[index].number if index < len(self.rows) else "Workings"

    def collect_inner(self):
        """Inner definitions that a shown contract cites, directly or through others, lowest first."""
        self.inner = []

        def visit(item):
            if item.inner and item not in self.inner:
                for below in self.house.cites(item):
                    visit(below)
                self.inner.append(item)
        for contract in [item for item in self.shown if isinstance(item, Contract)]:
            for item in self.house.cites(contract):
                visit(item)

    def names(self):
        """A name that stands for more than one thing is shown with its crate, and with its file where the crate has two of it."""
        count = {}
        for item in list(self.shown) + self.inner:
            count.setdefault(item.name, []).append(item)
        self.tags = {}
        for items in count.values():
            for item in items if len(items) > 1 else []:
                alone = sum(other.crate == item.crate for other in items) == 1
                file = item.module.replace(".", "/") if isinstance(item, Definition) else os.path.splitext(os.path.basename(item.path))[0]
                self.tags[item] = item.crate if alone else f"{item.crate}/{file}"
        self.fields = {}
        for item in self.shown:
            if isinstance(item, Definition):
                for field in item.fields:
                    self.fields.setdefault(field, []).append(item)

    def comment(self, item):
        """The comment above a definition. It may speak of those below it too; a definition with none is shown without."""
        return " ".join(re.sub(r"^(--|//) ?", "", line) for line in item.comment)

    def lines(self, rows):
        return sum(len(item.text.split("\n")) for row in rows for item in self.under[self.rows.index(row)])

    def declared(self, path, name):
        """The declaration of a proof: its name and type, as the file has it."""
        try:
            text = self.read(path)
        except OSError:
            return ""
        found = re.search(rf"(?m)^(?:pub )?{re.escape(name)} :[^\n]*(?:\n    [^\n]*)*", text)
        return found.group() if found else ""

    def numbers(self):
        """Each number: its name in the header, its condition, and the calls that give it, by the header's own lists."""
        defined = re.findall(r"#define (EXPANDER_\w+) (\d+)u\s*/\* (.*?) \*/", self.header)
        first = next(i for i, d in enumerate(defined) if d[0] == "EXPANDER_ACCEPTED")
        rising = []
        for name, number, words in defined[first:]:
            if int(number) != len(rising):
                break
            rising.append((name, int(number), words))
        calls = {number: [] for _, number, _ in rising}
        for comment, name in re.findall(r"/\*\*(.*?)\*/\n[^\n;]*?(expander_\w+)\(", self.header, re.S):
            returns = re.search(r"Returns:(.*?)(?:\n \*  (?:In|Out|Refused|Overlap):|\Z)", comment, re.S)
            given = {(int(n), "EXPANDER_" + word) for n, word in re.findall(r"\b(\d+) ([A-Z][A-Z_]+)\b", returns[1] if returns else "")}
            self.faults += [f"include/expander.h: {name} gives {n} the name {word}" for n, word in sorted(given)
                            if (n, word) not in {(r[1], r[0]) for r in rising}]
            for number in sorted({n for n, _ in given} & set(calls)):
                calls[number].append(name)
        conditions = {}
        for item in self.house.definitions.values():
            if item.key[:2] == ("answer", "Numbers"):
                value = re.search(r"= (\d+)", item.text)
                if value:
                    conditions[int(value[1])] = (item, " ".join(c[3:] for c in item.comment))
        return [(number, name, conditions.get(number, (None, words)), calls[number]) for name, number, words in rising]


# ---- HTML

def anchor(item):
    if isinstance(item, Contract):
        return f"c-{item.name}-{item.crate}-{os.path.basename(item.path)[:-3]}"
    name = "".join(c if c.isalnum() or c in "-_?′" else f"{ord(c):x}" for c in item.name)
    return "d-" + "-".join((item.crate, item.module, name)).replace(".", "-")


def kit_anchor(word):
    word = word.strip("◌") or word
    return "kit-" + "".join(c if c.isalnum() and c.isascii() else f"{ord(c):x}" for c in word)


def inline(text, code=None):
    """Inline markdown: code, bold, italics, links. `code` gives the html of a code span."""
    out = []
    for part in re.split(r"(`[^`]+`)", text):
        if part.startswith("`") and part.endswith("`") and len(part) > 1:
            out.append((code or (lambda c: f"<code>{html.escape(c)}</code>"))(part[1:-1]))
        else:
            part = html.escape(part, quote=False)
            part = re.sub(r"\*\*(.+?)\*\*", r"<b>\1</b>", part)
            part = re.sub(r"(?<![\w*])\*([^*]+?)\*(?![\w*])", r"<i>\1</i>", part)
            part = re.sub(r"\[([^\]]+)\]\(([^)]+)\)", r'<a href="\2">\1</a>', part)
            out.append(part)
    return "".join(out)


def markdown(text, level=0, anchors=False):
    """The pages' markdown as html: headings, paragraphs, lists, tables, code blocks."""
    out, lines, i = [], text.split("\n"), 0
    while i < len(lines):
        line = lines[i]
        head = re.match(r"(#+) (.*)", line)
        if head:
            n = min(6, len(head[1]) + level)
            out.append(f"<h{n}>{inline(head[2])}</h{n}>")
            i += 1
        elif line.startswith("    ") or line.startswith("```"):
            fenced = line.startswith("```")
            block = []
            i += fenced
            while i < len(lines) and (not lines[i].startswith("```") if fenced else (lines[i].startswith("    ") or not lines[i].strip())):
                block.append(lines[i] if fenced else lines[i][4:])
                i += 1
            i += fenced
            out.append("<pre class=plain>" + html.escape("\n".join(block).strip("\n")) + "</pre>")
        elif line.startswith("|"):
            rows = []
            while i < len(lines) and lines[i].startswith("|"):
                rows.append([c.strip().replace("\0", "|") for c in lines[i].replace("\\|", "\0").strip().strip("|").split("|")])
                i += 1
            body = [r for r in rows[1:] if not all(re.fullmatch(r":?-+:?", c) for c in r)]
            table = "<table><thead><tr>" + "".join(f"<th>{inline(c)}</th>" for c in rows[0]) + "</tr></thead><tbody>"
            for row in body:
                ids = ""
                if anchors:
                    words = re.findall(r"`([^`]+)`", row[0])
                    ids = "".join(f'<span id="{kit_anchor(w)}"></span>' for w in words if w not in seen_anchors and not seen_anchors.add(w))
                if row[0] in MARKS:
                    ids, row[0] = f'<span class="mark {row[0]}">{row[0]}</span>', ""
                table += "<tr>" + "".join(f"<td>{ids if k == 0 else ''}{inline(c)}</td>" for k, c in enumerate(row)) + "</tr>"
            out.append(table + "</tbody></table>")
        elif re.match(r"[-*] |\d+\. ", line):
            tag = "ol" if line[0].isdigit() else "ul"
            items = []
            while i < len(lines) and (re.match(r"[-*] |\d+\. ", lines[i]) or (lines[i].startswith("  ") and lines[i].strip())):
                if re.match(r"[-*] |\d+\. ", lines[i]):
                    items.append(re.sub(r"^([-*]|\d+\.) ", "", lines[i]))
                else:
                    items[-1] += " " + lines[i].strip()
                i += 1
            out.append(f"<{tag}>" + "".join(f"<li>{inline(x)}</li>" for x in items) + f"</{tag}>")
        elif line.strip():
            block = []
            while i < len(lines) and lines[i].strip() and not re.match(r"#+ |\||[-*] |```|    ", lines[i]):
                block.append(lines[i])
                i += 1
            out.append(f"<p>{inline(' '.join(block))}</p>")
        else:
            i += 1
    return "\n".join(out)


seen_anchors = set()

STYLE = """
:root { --ink: #1d1f24; --soft: #6a6f7a; --line: #d9dbe0; --paper: #fffefb; --code: #f6f5f0; --link: #1c4e80; --accent: #8a4b08; }
* { box-sizing: border-box; }
html { scroll-padding-top: 1rem; }
body { margin: 0; background: var(--paper); color: var(--ink); font: 17px/1.55 Georgia, "DejaVu Serif", "Liberation Serif", serif; }
main { max-width: 58rem; margin: 0 auto; padding: 2rem 1.5rem 6rem; }
h1 { font-size: 2.1rem; line-height: 1.2; margin: 2.5rem 0 .5rem; }
h1.part { margin-top: 5rem; padding-top: 1rem; border-top: 4px double var(--ink); }
h2 { font-size: 1.5rem; margin: 3.5rem 0 .8rem; padding-top: .6rem; border-top: 2px solid var(--ink); }
h3 { font-size: 1.15rem; margin: 2rem 0 .5rem; }
h4 { font-size: 1rem; margin: 1.4rem 0 .4rem; }
a { color: var(--link); text-decoration: none; }
a:hover { text-decoration: underline; }
code, pre { font-family: "DejaVu Sans Mono", "Liberation Mono", Menlo, Consolas, monospace; font-size: .8rem; }
code { background: var(--code); padding: .05em .25em; border-radius: 3px; overflow-wrap: anywhere; }
pre { background: var(--code); border-left: 3px solid var(--line); padding: .6rem .8rem; margin: .35rem 0 0; line-height: 1.5; white-space: pre-wrap; overflow-wrap: anywhere; }
pre a { border-bottom: 1px dotted #9db4cc; }
pre a:hover { background: #e6eef7; text-decoration: none; }
.k { color: var(--soft); } .f { color: #4d5663; } .c { color: var(--soft); font-style: italic; } .own { font-weight: bold; color: var(--ink); }
.in { color: var(--soft); border-bottom: 1px dashed #c9cbd1; }
sub.crate { font-size: .62em; color: var(--soft); margin-left: .1em; }
table { border-collapse: collapse; margin: 1rem 0; font-size: .9rem; width: 100%; }
th, td { border-bottom: 1px solid var(--line); padding: .3rem .6rem .3rem 0; text-align: left; vertical-align: top; }
th { border-bottom: 2px solid var(--ink); }
td.n, th.n { text-align: right; white-space: nowrap; padding-right: 1rem; }
.row { margin: 2.2rem 0 0; padding-top: .9rem; border-top: 1px solid var(--line); break-inside: auto; }
.row > p.words { margin: .2rem 0 .4rem; }
.no { font-weight: bold; font-size: 1.05rem; margin-right: .6rem; color: var(--accent); }
.mark { font: .72rem/1 "DejaVu Sans", "Liberation Sans", Arial, sans-serif; border: 1px solid; border-radius: 3px; padding: .18em .45em; vertical-align: .15em; letter-spacing: .02em; }
.contract { color: #1c4e80; } .statement { color: #1e6b3a; } .form { color: #7a5200; } .tested { color: #7a2e6b; } .assumed { color: #8c1d18; }
.said { font-size: .88rem; color: var(--soft); margin: .2rem 0; }
.def { margin: 1rem 0 0 1.2rem; }
.def .where { float: right; font: .7rem/1.4 "DejaVu Sans", "Liberation Sans", Arial, sans-serif; color: var(--soft); margin-left: 1rem; }
.def p { margin: 0; font-size: .95rem; }
.lead { font-size: 1.08rem; } .small { font-size: .85rem; color: var(--soft); }
.names { columns: 3 15rem; font-size: .85rem; line-height: 1.5; } .names div { break-inside: avoid; }
:target > .words, pre:target, .def:target { background: #fff6d6; }
@media print {
  body { font-size: 10.5pt; background: #fff; } main { max-width: none; padding: 0; } a { color: inherit; }
  pre { white-space: pre-wrap; break-inside: auto; } h2, h1.part { break-before: page; } .def p { break-inside: avoid-page; }
}
@page { size: A4; margin: 18mm 16mm; }
"""


class Html:
    def __init__(self, book):
        self.book = book
        self.out = []

    def link(self, item, words=None):
        title = html.escape(item.text.split("\n")[0].strip(), quote=True)
        name = html.escape(words or item.name)
        if item in self.book.tags:
            name += f"<sub class=crate>{self.book.tags[item]}</sub>"
        return f'<a href="#{anchor(item)}" title="{title}">{name}</a>'

    def code(self, item):
        out = []
        for kind, word, target in self.book.house.shown(item):
            text = html.escape(word, quote=False)
            if kind == "comment":
                out.append(f"<span class=c>{text}</span>")
            elif kind == "field":
                field = word[1:].strip("«»")
                bare = html.escape(word[1:], quote=False)
                if field in self.book.fields:
                    out.append(f'.<a class=f href="#field-{html.escape(field)}">{bare}</a>')
                else:
                    out.append(f"<span class=f>{text}</span>")
            elif isinstance(target, Definition):
                if target is item:
                    out.append(f"<span class=own>{text}</span>")
                elif target in self.book.shown or target in self.book.inner:
                    out.append(self.link(target, word))
                else:
                    out.append(f'<span class=in title="inner: {html.escape(target.path)}">{text}</span>')
            elif kind == "kit":
                out.append(f'<a href="#{kit_anchor(target[2])}" title="{html.escape(target[1] + "." + target[2])}">{text}</a>')
            elif word in KEYWORDS:
                out.append(f"<span class=k>{text}</span>")
            elif kind in ("word", "part") and word.strip("«»") in self.book.fields and word not in getattr(item, "fields", ()):
                out.append(f'<a class=f href="#field-{html.escape(word.strip("«»"))}">{text}</a>')
            else:
                out.append(text)
        return "".join(out)

    def cited(self, text, proof=False):
        """A cell that names things: each as a link, with its path as the title."""
        def span(code):
            found = CITED.fullmatch(f"`{code}`")
            if not found:
                return f"<code>{html.escape(code)}</code>"
            path, name = found[1], found[2]
            item = self.book.item(path, name)
            if item and item in self.book.shown:
                extra = name[len(name.split(".")[0]):]
                return f"<code>{self.link(item)}{html.escape(extra)}</code>"
            if proof:
                declared = " ".join(self.book.declared(path, name).split()) or name
                return f"<code>{html.escape(re.sub('^pub ', '', declared))}</code> <span class=small>({html.escape(path)})</span>"
            return f'<code title="{html.escape(path)}">{html.escape(name)}</code> <span class=small>({html.escape(path)})</span>'
        return inline(text, span)

    def definition(self, item):
        where = f"{item.path}:{item.line}"
        self.out.append(f'<div class=def id="{anchor(item)}"><span class=where>{html.escape(where)}</span>'
                        f"<p>{inline(self.book.comment(item))}&#8203;</p><pre>{self.code(item)}</pre></div>")

    def page(self, stamp):
        book, out = self.book, self.out
        out.append("<!DOCTYPE html>\n<html lang=en><head><meta charset=utf-8><meta name=viewport content='width=device-width'>"
                   f"<title>Censerlotus: all promises, with the workings</title><style>{STYLE}</style></head><body><main>")
        base = [r for r in book.rows if re.match(r"\d", r.number)]
        out.append("<h1>Censerlotus: all promises, with the workings</h1>")
        out.append(f"<p class=lead>What the correlation expander promises, in the order of its two documents, with their definitions: "
                   f"{len(book.rows)} rows, {sum(isinstance(i, Definition) for i in book.shown)} definitions and "
                   f"{sum(isinstance(i, Contract) and i.exported for i in book.shown)} exported contracts, "
                   f"{book.lines(book.rows)} lines below the rows, {book.lines(base)} of them below those of document 01. "
                   "Document 01 is read on its page, in the short book that <code>tools/book</code> writes; this one is its appendix, "
                   "and the book of document 02.</p>")
        out.append(f"<p class=small>{html.escape(stamp)}</p>")
        out.append("<h3>How to read it</h3><p>Each row says a requirement in full, with its number, and a mark that tells how it is met. "
                   "Below it stand the definitions that it needs, if they were not shown before. A name is a link to its definition, and hovering shows "
                   "that definition's first line; a field leads to the records that have it, and a name of the kit to the chapter on notation. "
                   "A name that stands for several things has its crate in small letters. Read from the top, nothing is used before it was "
                   "shown. A comment is shown with the definition that it stands above in its file, and may speak of those below it there "
                   "too.</p>")
        out.append("<h3>Contents</h3><table><thead><tr><th>chapter</th><th class=n>rows</th><th class=n>lines</th></tr></thead><tbody>")
        out.append('<tr><td><a href="#notation">Notation</a></td><td></td><td></td></tr>')
        for k, (level, title, text, rows) in enumerate(book.chapters):
            if level == 1 and k and not rows:
                out.append(f'<tr><td colspan=3><b><a href="#chapter-{k}">{inline(title)}</a></b></td></tr>')
            elif rows:
                out.append(f'<tr><td><a href="#chapter-{k}">{inline(title)}</a></td><td class=n>{len(rows)}</td>'
                           f'<td class=n>{book.lines(rows) or ""}</td></tr>')
        out.append(f"<tr><td><b>all</b></td><td class=n>{len(book.rows)}</td><td class=n>{book.lines(book.rows)}</td></tr>")
        for name, title in (("rest", "Workings that no row names"), ("calls", "The exported calls"), ("numbers", "The numbers"),
                            ("inner", "Inner definitions"), ("names", "Names")):
            out.append(f'<tr><td><a href="#{name}">{title}</a></td><td></td><td></td></tr>')
        out.append("</tbody></table>")
        notation = re.sub(r"\A# .*\n", "", book.notation)
        out.append(f'<h2 id=notation>Notation</h2>{markdown(notation, 1, anchors=True)}')
        index = 0
        for k, (level, title, text, rows) in enumerate(book.chapters):
            tag = min(level, 3) if k else 2
            out.append(f'<h{tag} id="chapter-{k}"{" class=part" if level == 1 and k else ""}>{inline(title)}</h{tag}>')
            out.append(markdown(text, 1))
            for row in rows:
                out.append(f'<section class=row id="row-{html.escape(row.number)}"><p class=words><span class=no>{html.escape(row.number)}</span>'
                           f'{inline(row.words)} <span class="mark {html.escape(row.mark)}">{html.escape(row.mark)}</span></p>')
                if row.said.strip():
                    out.append(f"<p class=said>Said by {self.cited(row.said)}</p>")
                if row.proof.strip():
                    out.append(f"<p class=said>Proof: {self.cited(row.proof, True)}</p>")
                for item in book.under[index]:
                    self.definition(item)
                out.append("</section>")
                index += 1
        out.append("<h2 id=rest>Workings that no row names</h2>")
        for item in book.under[index]:
            self.definition(item)
        self.tail()
        out.append("</main></body></html>")
        return "\n".join(out) + "\n"

    def tail(self):
        book, out = self.book, self.out
        out.append("<h2 id=calls>The exported calls</h2><p>Each contract is one equation, from everything lent and passed to everything that stands on "
                   "return. None has a <code>requires</code>.</p><table><thead><tr><th>call</th><th>stands in</th></tr></thead><tbody>")
        for item in sorted((i for i in book.shown if isinstance(i, Contract) and i.exported), key=lambda c: (c.path, c.line)):
            out.append(f"<tr><td><code>{self.link(item)}</code></td><td class=small>{html.escape(item.path)}:{item.line}</td></tr>")
        out.append("</tbody></table>")
        out.append("<h2 id=numbers>The numbers</h2><table><thead><tr><th class=n>number</th><th>name</th><th>given for</th><th>by the calls</th></tr></thead><tbody>")
        exported = {c.name: c for c in book.shown if isinstance(c, Contract)}
        for number, name, (item, words), calls in book.numbers():
            shown = self.link(item) if item in book.shown else html.escape(item.name if item else name)
            given = ", ".join(self.link(exported[c], c.replace("expander_", "")) if c in exported else html.escape(c) for c in calls)
            out.append(f"<tr><td class=n>{number}</td><td><code>{shown}</code></td><td>{inline(words)}</td><td>{given or 'every call'}</td></tr>")
        out.append("</tbody></table><p class=small>Which call gives which number is read from the lists in include/expander.h.</p>")
        out.append("<h2 id=inner>Inner definitions</h2><p>No promise rests on these. They stand here since contracts of inner functions that a row "
                   "names, for a form or for request 3, cite them.</p>")
        for item in book.inner:
            self.definition(item)
        out.append("<h2 id=names>Names</h2><h3>Definitions and contracts</h3><div class=names>")
        for item in sorted(book.shown, key=lambda i: (i.name.lower(), i.crate)):
            out.append(f"<div><code>{self.link(item)}</code></div>")
        out.append("</div><h3>Fields, and the records that have them</h3><div class=names>")
        for field, items in sorted(book.fields.items(), key=lambda f: f[0].lower()):
            out.append(f'<div id="field-{html.escape(field)}"><code>{html.escape(field)}</code>: ' + ", ".join(self.link(i) for i in items) + "</div>")
        out.append("</div>")


# ---- plain text

def plain(book, stamp):
    """The book as text. What a row names is followed by the row that shows it, if that is another."""
    out = ["CENSERLOTUS: ALL PROMISES, WITH THE WORKINGS", "", stamp, ""]
    wrap = lambda text, indent="": out.extend(textwrap.wrap(text, 108, initial_indent=indent, subsequent_indent=indent,
                                                            break_long_words=False, break_on_hyphens=False) or [""])
    wrap("Each row has its number in square brackets and its mark in round ones, then what says it and its proof, then the definitions that it "
         "needs and that were not shown before, each under its place. A name that stands for several things has its crate in ⟨ ⟩, and its "
         "file where the crate has two.")
    out += ["", book.notation.strip(), ""]
    def cited(text, index, proof=False):
        def one(found):
            path, name = found[1], found[2]
            item = book.item(path, name)
            if proof:
                return f"{re.sub('^pub ', '', ' '.join(book.declared(path, name).split())) or name} ({path})"
            there = book.shown.get(item) if item else None
            return f"{name} ({path}{'' if there in (None, index) else ', shown under ' + book.where(there)})"
        return re.sub(r"`(crates/[^:`]+):([^`]+)`", one, text)

    def show(item):
        out.append(f"    {item.path}:{item.line}")
        if book.comment(item):
            wrap("-- " + book.comment(item), "    ")
        text = "".join(word + (f"⟨{book.tags[target]}⟩" if isinstance(target, Definition) and target is not item and target in book.tags else "")
                       for _, word, target in book.house.shown(item))
        out.extend(["    " + line for line in text.split("\n")] + [""])

    index = 0
    for level, title, text, part in book.chapters:
        out += ["", "=" * 108 if level <= 2 else "-" * 108, title, ""]
        if text:
            out += [text, ""]
        for row in part:
            wrap(f"[{row.number}] ({row.mark}) {row.words}")
            if row.said.strip():
                wrap("said by: " + cited(row.said, index), "    ")
            if row.proof.strip():
                wrap("proof: " + cited(row.proof, index, True), "    ")
            out.append("")
            for item in book.under[index]:
                show(item)
            index += 1
    out += ["", "=" * 108, "Workings that no row names", ""]
    for item in book.under[index]:
        show(item)
    out += ["", "=" * 108, "The numbers", ""]
    for number, name, (item, words), calls in book.numbers():
        wrap(f"{number:3}  {item.name if item else name}: {words}. Given by {', '.join(c.replace('expander_', '') for c in calls) or 'every call'}.")
    out += ["", "=" * 108, "Inner definitions, which contracts of inner functions cite; no promise rests on them", ""]
    for item in book.inner:
        show(item)
    out += ["", "=" * 108, "Names, and the row under which each is shown", ""]
    for item in sorted(book.shown, key=lambda i: (i.name.lower(), i.crate)):
        out.append(f"{item.name}{'⟨' + book.tags[item] + '⟩' if item in book.tags else ''}: {book.where(book.shown[item])}")
    return "\n".join(out) + "\n"


def write(root, folder, stamp):
    """Writes workings.html and workings.txt, and returns a line about them."""
    book = Book(root)
    with open(os.path.join(folder, "workings.html"), "w", encoding="utf-8") as file:
        file.write(Html(book).page(stamp))
    with open(os.path.join(folder, "workings.txt"), "w", encoding="utf-8") as file:
        file.write(plain(book, stamp))
    return (f"{len(book.rows)} rows, {len(book.shown)} definitions and contracts, {book.lines(book.rows)} lines below rows: "
            f"{os.path.relpath(folder)}/workings.html")
