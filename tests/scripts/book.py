#!/usr/bin/env python3
"""usage: tests/scripts/book.py [--pages] FOLDER

Holds the books to what they are made of. Makes them in the folder that is given, and fails unless

the book of each document
- has the page and the statements whole: their text is the files', and every declaration stands in it once, in order, at its line;
- has its contracts, whole: document 01's eight, and those of all other exported calls in document 02's;
- shows under every statement one proof, which a file of proofs/ declares with that statement as its type;
- has a sheet of notation of at most 60 lines of at most 140 characters, which explains every keyword, sign and name of the kit that the
  files, the contracts and what gives an enum's numbers use (document 02's with document 01's sheet), ranks every operator as it binds, and
  has nothing that they do not use;
- reads aloud a contract and a statement that the code and the file have (document 01's);
- says on its first part what it is, has the evidence whole (document 01's), and a place to sign;
- has a link to every defined name, a target for every link, every id once, and no script;
- takes at most 30 printed pages (with --pages alone, which needs chromium and pdfinfo);

the book with the workings
- has every definition of specs/ outside Inner/, and every exported contract, exactly once, and after what it cites;
- has its links, ids, rows and marks in order, and explains every name of the kit that a shown definition uses;
- has every number in the list of some call of the header, in each list with its own name.
"""
import collections
import html.parser
import importlib.machinery
import importlib.util
import os
import re
import subprocess
import sys

os.chdir(os.path.join(os.path.dirname(os.path.abspath(__file__)), "..", ".."))
if sys.argv[1:] in (["--help"], ["-h"]):
    print(__doc__.strip())
    sys.exit(0)
pages = sys.argv[1:2] == ["--pages"]
if len(sys.argv) != 2 + pages or sys.argv[-1].startswith("-"):
    print("usage: tests/scripts/book.py [--pages] FOLDER", file=sys.stderr)
    sys.exit(2)
folder = sys.argv[-1]
sys.dont_write_bytecode = True
subprocess.run(["tools/book", "--workings", folder], check=True)
loader = importlib.machinery.SourceFileLoader("book", "tools/book")
spec = importlib.util.spec_from_loader("book", loader)
short = importlib.util.module_from_spec(spec)
loader.exec_module(short)
made = short.workings
faults = []


def text_of(path):
    with open(path, encoding="utf-8") as file:
        return file.read()


squeezed = lambda text: " ".join(text.split())
made_text = lambda name: text_of(os.path.join(folder, name))


def links_and_ids(page, name):
    ids = collections.Counter(re.findall(r'\bid="?([^"\s>]+)"?', page))
    links = collections.Counter(re.findall(r'href="#([^"]+)"', page))
    faults.extend(f"{name}: a link has no target: {target}" for target in sorted(set(links) - set(ids)))
    faults.extend(f"{name}: an id stands {count} times: {target}" for target, count in sorted(ids.items()) if count > 1)
    for found in re.findall(r"<script|<iframe|\son\w+=|(?:href|src)=[\"']?(?:https?:|//|javascript:)", page):
        faults.append(f"{name} has more than text and links in it: {found.strip()}")
    return ids, links


# ==== the book of document 01

class Shown(html.parser.HTMLParser):
    """What a reader sees: the two files as text, each block of code with its line and its own name, and what stands under statements."""

    def __init__(self):
        super().__init__()
        self.files, self.code, self.beside, self.headings = [], [], [], []
        self.inside, self.depth, self.tags = None, 0, []

    def handle_starttag(self, tag, attributes):
        of = dict(attributes)
        if tag in ("meta", "br"):
            return
        self.tags.append((tag, of.get("class", "")))
        if of.get("class") == "whole":
            self.files.append("")
        if of.get("class") == "with":
            self.beside.append([self.code[-1][1] if self.code else None, ""])
        if tag == "pre" and "data-n" in of:
            self.code.append([int(of["data-n"]), "", ""])
        if tag == "h2":
            self.headings.append("")

    def handle_endtag(self, tag):
        while self.tags and self.tags.pop()[0] != tag:
            pass
        if tag in ("pre", "p", "h3", "span"):
            self.add("\n")

    def handle_data(self, text):
        kinds, classes = [t for t, _ in self.tags], [c for _, c in self.tags]
        if kinds[-1:] == ["b"] and "pre" in kinds and self.code:
            self.code[-1][1] = self.code[-1][1] or text
        if kinds[-1:] == ["h2"]:
            self.headings[-1] += text
        if "with" in classes:
            self.beside[-1][1] += text
        else:
            self.add(text.replace(": ", " ") if "h3" in kinds else text)

    def add(self, text):
        kinds, classes = [t for t, _ in self.tags], [c for _, c in self.tags]
        if "with" in classes:
            return
        if "whole" in classes:
            self.files[-1] += text
        if "pre" in kinds and self.code and not any(c == "plain" for c in classes):
            self.code[-1][2] += text


DECLARED = re.compile(r"(?:unfoldable |abbrev )?(?:pub )?(?:record |data )?([^\s({]+)(?: .*)? : ")
OWN = re.compile(r"Rattle\.(?!(?:core|std)\.)")  # a module of this repository, and none of the kit's
SIGNS = re.compile(r'"[^"]*"|[^\s(){};,.«»⌜⌝λ]+|[«»⌜⌝λ]')
notation = text_of("docs/NOTATION.md")
chapter = lambda title: re.search(rf"(?ms)^## {title}\n(.*?)(?=^## |\Z)", notation)[1].strip("\n")
first_column = lambda sheet: [s.replace("\\|", "|") for row in re.findall(r"(?m)^\| ((?:`(?:\\\||[^`])+`(?:, )?)+) \|", sheet)
                              for s in re.findall(r"`([^`]+)`", row)]
all_ids = {}


def check(volume):
    book = short.Book(".", volume)
    page, plain = made_text(volume.html), made_text(volume.text)
    shown = Shown()
    shown.feed(page)
    ids, links = links_and_ids(page, volume.html)
    all_ids[volume.html] = set(ids)
    for other, target in sorted(set(re.findall(r'href="([^"#]+)#([^"]+)"', page))):
        if target not in all_ids.get(other, ()):
            faults.append(f"{volume.html}: a link has no target: {other}#{target}")

    # whole, in order
    names = {}
    for path, text in zip((volume.page, volume.statements), shown.files + ["", ""]):
        lines = text_of(path).rstrip("\n").split("\n")
        title = lambda line: line.replace("-- ==== ", "").replace(": ", " ")
        bare = [title(line) if line.startswith("-- ====") else re.sub(r"^( *)-- ", r"\1", line) for line in lines]
        wanted, got = "\n".join(bare).replace("`", "").split(), text.split()
        at = next((k for k, (a, b) in enumerate(zip(wanted, got)) if a != b), min(len(wanted), len(got)))
        if wanted != got:
            faults.append(f"the book has not {path} whole: '{' '.join(wanted[at:at + 8])}' is there '{' '.join(got[at:at + 8])}'")
        declared = [(number, DECLARED.match(line)[1]) for number, line in enumerate(lines, 1) if re.match(r"(unfoldable |abbrev )?pub ", line)]
        names[path] = [name for _, name in declared]
        first = next((k for k, (_, name, _) in enumerate(shown.code) if declared and name == declared[0][1]), 0)
        at = [(number, name) for number, name, _ in shown.code[first:] if name][:len(declared)]
        faults[len(faults):] = [f"{path}:{place[0]}: {place[1]} is not in its place in the book, where {other} is"
                   for place, other in zip(declared, at) if place != other]
        faults[len(faults):] = [f"{path}: {name} stands in the book {count} times" for name in names[path]
                   for count in [sum(n == name and (k, n) in declared for k, n, _ in shown.code)] if count != 1]
        if text_of(path).rstrip("\n") not in plain:
            faults.append(f"book.txt has not {path} whole")

    # contracts
    wanted = [(path, r"pub fn line\b.*?(?=\n\{)" if "pair_line" in path else r'pub extern "C" fn .*?(?=\n\{)') for path in volume.contracts]
    contracts = [found for path, form in wanted for found in re.findall("(?ms)^" + form, text_of(path))]
    if len(contracts) != {"index.html": 8}.get(volume.html, others):
        faults.append(f"{volume.html}: there are {len(contracts)} contracts")
    for contract in contracts:
        count = sum(squeezed(text) == squeezed(contract) for _, _, text in shown.code)
        name = re.search(r"fn (\w+)", contract)[1]
        if count != 1 or contract not in plain:
            faults.append(f"the contract of {name} stands whole in the book {count} times, or not in book.txt")
        if contract.count("ensures") != 1 or "requires" in contract or not re.search(r"\bdocument(02)?\.", contract):
            faults.append(f"the contract of {name} is not one equation with the page")

    # statements: types without parameters that serve no other definition
    text = re.sub(r"--[^\n]*", "", text_of(volume.statements))
    plain_type = lambda name: re.search(rf"(?m)^(?:abbrev |unfoldable )?pub (?:record )?{re.escape(name)} : Type 0(?: where)?$", text)
    serves = lambda name: re.search(rf"(?m)^(?!.*pub (?:record )?{re.escape(name)} : ).*(?<![^\s(]){re.escape(name)}(?![^\s).])(?! =)", text)
    statements = [name for name in names[volume.statements] if plain_type(name) and not serves(name)]
    for name in statements:
        under = [said for owner, said in shown.beside if owner == name]
        proofs = [p for said in under for p in re.findall(r"Proof: (\S+) : (?:\w+\.)?(\S+) (\S+):(\d+)", said)]
        if len(proofs) != 1 or proofs[0][1] != name:
            faults.append(f"{volume.statements}: {name} has {len(proofs)} proofs in the book")
        for proof, _, path, number in proofs:
            line = text_of(path).split("\n")[int(number) - 1]
            if not re.fullmatch(rf"((unfoldable|abbrev|pub) )*{re.escape(proof)} : (\w+\.)?{re.escape(name)}", line):
                faults.append(f"{path}:{number} does not declare {proof} : {name}")
    if not statements or sorted(statements) != sorted(owner for owner, _ in shown.beside):
        faults.append(f"the statements are {', '.join(statements)}, and in the book {', '.join(str(o) for o, _ in shown.beside)}")

    # the sheet of notation
    sheet = chapter(volume.sheet)
    sheets = chapter("The sheet for document 01") + "\n" + sheet
    faults[len(faults):] = [f"docs/NOTATION.md: the sheet has {count} lines" for count in [len(sheet.split("\n"))] if count > 60]
    faults[len(faults):] = [f"docs/NOTATION.md: a line of the sheet has {len(line)} characters: {line[:60]}"
               for line in sheet.split("\n") if len(line) > 140]
    if squeezed(re.sub(r"<[^>]+>", " ", made.markdown(sheet, 1))) not in squeezed(re.sub(r"<[^>]+>", " ", page)):
        faults.append("the book has not the sheet of docs/NOTATION.md")
    spans = [s.replace("\\|", "|") for s in re.findall(r"`((?:\\\||[^`])+)`", sheets)]
    explained = {word for span in spans for word in SIGNS.findall(span)}
    first = first_column(sheet)
    code = {path: re.sub(r"--[^\n]*", "", text_of(path)) for path in (volume.page, volume.statements)}
    kit = {name.strip("◌") or name for text in code.values() for module, found in re.findall(r"(?m)^use (\S+)\.\{([^}]*)\}$", text)
           if not OWN.match(module) for name in found.split(", ")}
    kit |= {target[2].strip("◌") or target[2] for item in book.enum for kind, _, target in book.pieces(item) if kind == "kit"}
    own = {part for path in code for name in names[path] for part in [name, *name.strip("◌").split("◌")]}
    own |= set(re.findall(r"(?m)^  (?:pub )?([^\s:({]+) :", "".join(code.values()))) | {"otherwise", "◌otherwise◌"}
    own |= {name for text in code.values() for module, found in re.findall(r"(?m)^use (\S+)\.\{([^}]*)\}$", text)
            if OWN.match(module) for name in found.split(", ")}
    bound = set()
    around = [re.sub(r"--[^\n]*", "", text_of(path)) for path in ([short.FIRST.page, short.FIRST.statements] if volume.before else [])]
    own |= set(re.findall(r"(?m)^  (?:pub )?([^\s:({]+) :", "".join(around)))
    for text in [*code.values(), *around]:
        for binder in (r"[({;]([^(){}:=;]+) :(?: |\n)", r"λ ([^.()]+)\.", r"λ \(([^.()]+)\)\."):
            bound |= {name for group in re.findall(binder, text) for name in re.split(r"[\s,]+", group)}
        bound |= {name for pair in re.findall(r"\blet \(([^()]*)\)", text) for name in pair.split(", ")}
        bound |= set(re.findall(r"\blet (\S+)", text)) | set(re.findall(r"(\S+) ←", text)) | set(re.findall(r"([^\s{;]+) = ", text))
        for line in text.split("\n"):
            side = re.split(r" =(?: |$)", line)
            if len(side) > 1 and not line.startswith(" "):
                bound |= set(SIGNS.findall(side[0]))
    code_words = set()
    for contract in contracts + [item.text for item in book.structs]:
        for binder in (r"\b(\w+): ", r"(\w+) = ", r"\b(?:fn|struct) (\w+)"):
            bound |= set(re.findall(binder, contract))
        found = set(SIGNS.findall(contract.split("ensures")[0])) | {"ensures"}
        code_words |= {w.rstrip(":") for w in found} | set(SIGNS.findall(" ".join(contract.split("ensures")[1:])))
    bound |= {"r", *(item.name for item in book.structs)}
    used = {word for text in code.values() for word in SIGNS.findall(re.sub(r"(?m)^use .*$", "", text))} | code_words | {"use", "--"}
    unexplained = {word for word in used | kit if not re.fullmatch(r"\d+\]?", word) and (word in kit or word not in own | bound)}
    unexplained |= {word for word in own if not re.search(r"[\w◌]", word)} | {"when", "then", "else", "otherwise"}
    unexplained = {"0x1b" if word.startswith("0x") else word for word in unexplained}  # one example of a number to the base 16 will do
    parts_of = lambda word: set(re.findall(r"\w+|[^\w\s]+", word))
    known = explained | {part for word in explained for part in parts_of(word)}
    for word in sorted(unexplained):
        if word not in known and not (parts_of(word) <= known and re.search(r"[\[&:\"]", word)):
            faults.append(f"docs/NOTATION.md: the sheet does not explain {word}, which {volume.name}'s page, contracts or statements use")
    everything = used | kit | {part for word in used | code_words for part in parts_of(word)}
    for span in first:
        if " " not in span and not parts_of(span.replace(".", " ")) <= everything | {"f", "part"}:
            faults.append(f"docs/NOTATION.md: the sheet has {span}, which {volume.name}'s page, contracts and statements do not use")

    if not volume.before:
        # the order of operators: ranks of the kit's, and those that the page declares
        ranks = {"^": 75, "*": 70, "/": 70, "%": 70, "∷": 67, "+": 65, "-": 65, "++": 65, "<": 50, "≤": 50, "&&": 35, "||": 30, "≡": 4, "≢": 4}
        ranks.update({"×": 2, "↔": 1, "→": 0})
        ranks.update((re.sub(r"^◌|◌.*", "", name.strip("◌")) or name.strip("◌"), int(rank))
                     for rank, name in re.findall(r"(?m)^infix[lr]? (\d+) (\S+)$", code[volume.page]))
        order = re.search(r"(?s)\*\*What belongs together\*\*(.*?)Signs of one rank", sheet)[1]
        listed = [[s for s in re.findall(r"`([^`]+)`", part)] for part in order.split(";")[1:]]
        taken = {name for text in code.values() for found in re.findall(r"(?m)^use .*\{([^}]*)\}$", text) for name in found.split(", ")}
        operators = {name.strip("◌") for name in taken if name.startswith("◌") and name.endswith("◌")} | {"×", "→", "when"}
        faults[len(faults):] = [f"docs/NOTATION.md: the sheet does not rank {sign}" for sign in sorted(operators - {s for part in listed for s in part})]
        rank = [{ranks.get(s) for s in part} for part in listed]
        if any(len(r) != 1 or None in r for r in rank) or [max(r) for r in rank] != sorted({x for r in rank for x in r}, reverse=True):
            faults.append(f"docs/NOTATION.md: the sheet ranks operators otherwise than they bind: {rank}")

        # what is read aloud is there
        quoted = lambda title: [squeezed(found) for found in re.findall(r"(?m)(?:^    .*(?:\n|\Z))+", chapter(title))]
        aloud = quoted("A contract read aloud") + quoted("A statement read aloud")
        sources = [squeezed(book.house.contracts["crates/expander/src/lib.rt", "expander_noise_offline"].text),
                   squeezed(next(d.text for d in book.definitions[volume.statements] if d.name == "Claim"))]
        if len(aloud) != 2 or any(part not in source for part, source in zip(aloud, sources)):
            faults.append("docs/NOTATION.md reads another contract of expander_noise_offline or another part of Claim aloud than there is")
        for name in re.findall(r"`([A-Z]\w+|noise_returns|scalar_returns)`", chapter("A statement read aloud")):
            if name not in own:
                faults.append(f"docs/NOTATION.md reads {name} aloud, and the statements do not have it")

    # the first part, the evidence, the place to sign, links
    front = squeezed(re.sub(r"<[^>]+>", " ", page.split("<body>")[1].split("<h2")[0]))
    for words in (volume.title, "What this is", "What a signature means", "What is read, in this order"):
        if words not in front:
            faults.append(f"the book does not begin with '{words}'")
    parts = [re.sub(r"\A\d+\. ", "", h) for h in shown.headings if re.match(r"\d+\. ", h)]
    if parts != ["Notation", "The page", "The contracts", "The statements", "Outside mathematics", "Evidence", "The place to sign"]:
        faults.append(f"the parts of the book are {', '.join(parts)}")
    readable = squeezed(re.sub(r"<[^>]+>", "", page.split("<body>")[1]))
    for line in text_of("docs/EVIDENCE.md").split("\n")[1:] if not volume.before else []:
        bare = made.inline(re.sub(r"^(#+|-|\d+\.) ", "", line)) if not line.startswith(("    ", "|")) else ""
        if squeezed(re.sub(r"<[^>]+>", "", bare)) not in readable:
            faults.append(f"the book has not this line of docs/EVIDENCE.md: {line[:80]}")
    last = page[page.index("<h2 id=sign"):]
    for words in ("name and office", "date and signature", "git commit", "SHA-256 of libexpander.a", "SHA-256 of " + volume.page,
                  "SHA-256 of " + volume.statements):
        if words not in last:
            faults.append(f"the place to sign has no '{words}'")
    for item in book.definitions[volume.page] + book.definitions[volume.statements]:
        if not links[short.anchor(item)]:
            faults.append(f"{item.path}: no link leads to {item.name}")
    faults[len(faults):] = [f"row {row.number} is not in the book" for row in book.outside if ids["row-" + row.number] != 1]
    print(f"book: {volume.name}: {sum(map(len, names.values()))} declarations once each and in order, {len(contracts)} contracts, "
          f"{len(statements)} statements, {sum(links.values())} links, a sheet of {len(sheet.split(chr(10)))} lines")

    if pages:
        file = os.path.join(os.path.abspath(folder), volume.html.replace(".html", ".pdf"))
        subprocess.run(["chromium", "--headless", "--no-sandbox", "--disable-gpu", "--no-pdf-header-footer", "--print-to-pdf=" + file,
                        "file://" + os.path.join(os.path.abspath(folder), volume.html)], check=True, timeout=120, capture_output=True)
        count = int(re.search(r"Pages: *(\d+)", subprocess.run(["pdfinfo", file], check=True, capture_output=True, text=True).stdout)[1])
        print(f"book: {volume.name}: {count} printed pages")
        faults.extend([f"the book of {volume.name} takes {count} printed pages, and may take {volume.most}"] * (count > volume.most))


others = sum(text_of(path).count("#[unsafe(no_mangle)]") for path in short.SECOND.contracts)
for volume in short.VOLUMES:
    check(volume)
exported = {path for path in os.listdir("crates/expander/src") if "#[unsafe(no_mangle)]" in text_of("crates/expander/src/" + path)}
if {"crates/expander/src/" + path for path in exported} != {path for volume in short.VOLUMES for path in volume.contracts if "expander" in path}:
    faults.append("an exported call stands in neither book")
first = first_column(chapter("The sheet for document 01")) + first_column(chapter("The sheet for document 02"))

# ==== the book with the workings

book = made.Book(".")
page = made_text("workings.html")
ids, _ = links_and_ids(page, "workings.html")
reached, left = set(), [item for row in book.rows for item in book.named(row)] + [c for c in book.house.contracts.values() if c.exported]
left += [d for d in book.house.definitions.values() if not d.inner and d.kind not in ("struct", "enum")]
while left:
    item = left.pop()
    if item not in reached and not (isinstance(item, made.Definition) and item.inner):
        reached.add(item)
        left += book.house.cites(item)
for item in sorted(reached, key=str):
    if ids[made.anchor(item)] != 1:
        faults.append(f"{item.path}: {item.name} stands in the book with the workings {ids[made.anchor(item)]} times")
order = {item: place for place, item in enumerate(i for under in book.under for i in under)}
for item in sorted(reached, key=str):
    late = [d for d in book.house.cites(item) if d in order and order[d] > order.get(item, len(order))]
    faults += [f"{item.path}: {item.name} is shown before {d.name} of {d.path}, which it cites" for d in late]
for row in book.rows:
    if ids["row-" + row.number] != 1:
        faults.append(f"row {row.number} stands in the book with the workings {ids['row-' + row.number]} times")
    if row.mark not in made.MARKS:
        faults.append(f"row {row.number} has no mark, but '{row.mark}'")

# numbers
faults += [f"include/expander.h: no call's list has the number {number}, {name}" for number, name, _, calls in book.numbers() if not calls]
faults += book.faults

# notation
used = {target[2].strip("◌") or target[2] for item in book.shown for _, _, target in book.house.shown(item) if isinstance(target, tuple)}
taken = [rest[1] for brought in book.house.brought.values() for kind, *rest in brought.values() if kind == "kit"]
known = {name.strip("◌") or name for name in taken}
further = [w.replace("\\|", "|") for w in re.findall(r"(?m)^\| `((?:\\\||[^`])+)` \|", chapter("Further names of the kit"))]
faults += [f"docs/NOTATION.md does not have {name}, which a definition uses" for name in sorted(used - set(further) - set(first))]
faults += [f"docs/NOTATION.md has {name}, which no definition takes from the kit" for name in sorted(set(further) - known)]
count = re.search(r"use (\d+) more names", chapter("Further names of the kit"))
if not count or int(count[1]) != len(further):
    faults.append(f"docs/NOTATION.md lists {len(further)} further names of the kit, and says {count and count[1]}")
names = {d.name for d in book.shown}
for line in re.findall(r"(?m)^\| [^|]* \| [^|]* \| (.*) \|$", chapter("A block in four forms").split("| by |")[1]):
    faults += [f"docs/NOTATION.md names {w}, and there is no such definition" for w in re.findall(r"`([^`. ]+)`", line) if w not in names]

for fault in faults:
    print(fault, file=sys.stderr)
print(f"book: with the workings {len(reached)} definitions and contracts once each, {len(re.findall('href=.#', page))} links, "
      f"{len(book.rows)} rows, {len(further)} further names of the kit")
sys.exit(1 if faults else 0)
