#!/usr/bin/env python3
"""usage: tests/scripts/promises.py

Holds docs/PROMISES.md to the files, and the files to it. Fails, with a sentence for each fault, unless

the list, docs/PROMISES.md,
- numbers every row once, by its section, and gives it one of the five marks;
- names, as a path, a colon and a name (or Record.field), only what stands in that file, and only files that exist;
- marks `contract` only what the contract of an exported call or of the pair program's line reaches;
- names in each row marked `statement` a proof that is declared with a statement, applied to its parameters, as its type, or
  a function whose contract cites one; and that statement is, or reaches, all that the row names of specs/;
- lists in its table of statements the statements of its rows, all of them and no others, with their proofs;
- leads, in its table of sections, from each section to exactly the rows that are there;

the pages (crates/page/specs/Document01.antt, crates/page_two/specs/Document02.antt) and their statements (specs/Statements.antt of
crates/page_claims and crates/page_two_claims; of what is beyond both documents crates/page_beyond/specs/Beyond.antt)
- import nothing else of this repository: document 01's page the kit's modules alone; document 02's page these, document 01's page and
  the definitions that give an enum's numbers (ENUM below); statements the pages and the statements before them;
- are what the contracts of all exported calls and of the pair program's `line` cite: no other definition of this repository stands in
  them, and none is brought by their files; the seven exported calls of crates/expander/src/lib.rt, and `line`, cite document 01's alone;
- have no dead text: every declaration of a page is reached by such a contract or by a statement, every declaration of the statements
  by one that a row names;
- have at most 680, 640, 280, 350 and 260 lines, and 2,200 together, none of them above 140 characters but the lines of `use`;

the other definitions
- A promise is the pages, their statements, or a definition that a row names. No promise reaches specs/Inner/, and no file that has a
  definition which a promise reaches has a `use` of one there;
- outside specs/Inner/ stands nothing else than what a promise reaches and workings. These are what the contracts of the functions
  reach that exported calls and `line` pass on to, and the laws, which say of workings what the statements say of the pages (LAWS
  below), with what they reach. Whether a working stands in specs/Inner/ or outside it means nothing;
- each law is no row's, and has a proof that is declared with it;
- no definition that a contract reaches lies in proofs/: no file of specs/ and no file of code names a module of a proofs/
  folder, its own crate's or another's, so that what a contract says can be read without one;

the code and the edits
- every exported function, and `line` of the pair program, has exactly one `ensures` and no `requires`;
- every statement of a row, every part of one that a row names, and every law is named in an edit that makes it false: a comment
  `# Falsifies NAME: ..` in a must-fail edit of its crate, or of another crate where no other statement has that name and which
  has no definition of that name itself (`NAME, NAME` and `NAME.field` will do too). A part is the type of a field, as
  `OutputsCorrelated` of `CommonFacts`;

the landing notes
- docs/landings/README.md names only what exists today, and has a row for each name in the notes that does not, nor in the spelling
  that the port to today's kit gave it (tools/port-names).
"""
import glob
import os
import re
import sys

if sys.argv[1:] in (["--help"], ["-h"]):
    print(__doc__.strip())
    sys.exit(0)
if len(sys.argv) != 1:
    print("usage: tests/scripts/promises.py", file=sys.stderr)
    sys.exit(2)
os.chdir(os.path.join(os.path.dirname(os.path.abspath(__file__)), "..", ".."))
sys.path.insert(0, "tools")
sys.dont_write_bytecode = True
import definitions as reader  # noqa: E402

PAGE = "docs/PROMISES.md"
DOCUMENT = ("page", "Document01")                # document 01's page, document 02's, and their statements
SECOND = ("page_two", "Document02")
STATEMENTS = ("page_claims", "Statements")
SECOND_STATEMENTS = ("page_two_claims", "Statements")
BEYOND = ("page_beyond", "Beyond")               # statements of what is beyond both documents
LINES = {DOCUMENT: 680, SECOND: 640, STATEMENTS: 280, SECOND_STATEMENTS: 350, BEYOND: 260}  # the most lines that each may have
TOGETHER = 2200  # and all five
PAGES = {DOCUMENT, SECOND}
# what each may import of this repository
ALLOWED = {DOCUMENT: set(), SECOND: {DOCUMENT}, STATEMENTS: {DOCUMENT}, SECOND_STATEMENTS: PAGES | {STATEMENTS},
           BEYOND: PAGES | {STATEMENTS, SECOND_STATEMENTS, ("market", "Bytes")}}
DATA = ("market", "Bytes", "market_bytes")  # the demo's bytes: a list of numbers and no definition
# the definitions that give an enum's numbers, and what stands in them: document 01's forms have promises go through them
ENUM = {"use Rattle.prime.specs.Prime.{prime}",
        "use Rattle.amounts.specs.declared.WrittenAmount.{WrittenAmount}", "use Rattle.amounts.specs.Calls.{written_as}"}
ENUM_NUMBERS = ("amounts", "Calls", "written_as")
OWN = re.compile(r"Rattle\.(?!(?:core|std)\.)")  # a module of this repository, and none of the kit's
WIDTH = 140
# laws: statements over workings that the statements over the pages say again
LAWS = {("claims", "Correlation", "Demand3"), ("claims", "Records", "Records"), ("claims", "Acceptance", "Acceptance"),
        ("claims", "Pairing", "Held"), ("claims", "Cases", "Cases"), ("pads", "Calls", "Accepts"), ("tree", "Follows", "FromSiblings"),
        ("layer_claims", "Correlation", "LayerLists"), ("layer_claims", "Outputs", "LayerOutputs"), ("layer_claims", "Outputs", "LayersServe"),
        ("layer_claims", "Outputs", "LayersForm"), ("layer_claims", "Outputs", "OneLayer")}
LAWS |= {("claims", "Messages", "Messages"), ("claims", "Messages", "SourceMessages"), ("claims", "Triples", "Triples"),
         ("claims", "Formed", "DealingsForm"), ("claims", "Buffers", "Buffers"), ("claims", "Circuits", "Circuits"),
         ("claims", "RoundCircuits", "RoundCircuits"), ("pads", "Messages.Calls", "Accepts"), ("pads", "Triples.Call", "Accepts"),
         ("pads", "Triples.Matching", "ZeroOrOne"), ("stock", "Lists", "StockLists"), ("stock", "Lists", "Previews"),
         ("ends", "Bench", "Bench"), ("amounts", "Agree", "Agree"), ("record_describe", "Sizing", "Sizing"),
         ("circuit", "OneWriting", "OneWriting"), ("circuit_claims", "Progress", "Progress"),
         ("circuit_claims", "Acceptance", "StepAcceptance"), ("circuit_claims", "Evaluation", "Evaluation"),
         ("circuit_claims", "RoundProgress", "RoundProgress"), ("circuit_claims", "RoundAcceptance", "RoundAcceptance"),
         ("circuit_claims", "RoundEvaluation", "RoundEvaluation"), ("circuit_claims", "Same", "SameOutputs"),
         ("circuit_claims", "Same", "SameBits"), ("circuit_claims", "Same", "OpenedOnce")}
LAWS |= {("layer_claims", "Correlation", "LayerLists"), ("layer_claims", "Outputs", "LayerOutputs"), ("layer_claims", "Outputs", "LayersServe"),
         ("layer_claims", "Outputs", "LayersForm"), ("layer_claims", "Outputs", "OneLayer")}
LAWS |= {("market", "Clears", "OnePrice"), ("market", "Bids", "CircuitClears"), ("market", "Price", "BidsToPrice"),
         ("market", "Price", "BidsToPriceBySteps"), ("market", "Price", "MarketAdmitted"), ("market", "Counts", "MarketCounts"),
         ("market", "Bytes", "MarketBytes"), ("circuit_hidden", "Hidden", "HiddenRounds"), ("circuit_hidden", "Hidden", "HiddenSteps"),
         ("circuit_hidden", "Run", "Transcripts")}
NOTES = "docs/landings"
EXPORTS = sorted(glob.glob("crates/expander/src/*.rt"))
EXPORTS_OF_DOCUMENT = "crates/expander/src/lib.rt"  # document 01's seven calls
LINE = ("crates/pair_line/src/lib.rt", "line")      # the pair program's line
MARKS = {"contract", "statement", "form", "tested", "assumed"}
COLUMNS = "| no. | requirement | mark | said by | proof |"
NAME = re.compile(r"[^\s(){};,.λ⌜⌝]+")
CITED = re.compile(r"`(crates/[^:`\s]+):([^`\s]+)`")

faults = []


def text_of(path):
    return open(path, encoding="utf-8").read() if os.path.isfile(path) else ""


# ---- the definitions of specs/

def imports(text):
    """What the `use` lines of a text bring of specs/: names as (crate, module, name), `as` names as (crate, module)."""
    return own_names(reader.imports(text))


def signs(name):
    """The words by which a text uses a name: `when` of `when◌then◌else◌`, `!` of `◌!◌`, and `do` besides of `◌>>=◌`."""
    first = [part for part in name.split("◌") if part][:1]
    return {"when◌then◌else◌": {"when"}, "◌>>=◌": {">>=", "do"}}.get(name, set(first) if "◌" in name else {name})


def own_names(names):
    return {sign: place[1] for name, place in names.items() if place[0] != "kit"
            for sign in ({name} | signs(place[1][2]) if len(place[1]) == 3 else {name})}


house = reader.House(".")
definitions, above = {}, None
for key, item in house.definitions.items():
    if item.kind in ("struct", "enum"):
        continue
    if above and above[:2] == key[:2] and not reader.HEAD.match(item.lines[0]):
        definitions[above] += item.text + "\n"  # a clause that begins with an argument, as `l ! i = ..`, belongs to the name before it
    else:
        definitions[key] = item.text + "\n"
        above = key
mixed = {key[:2] + (sign,): key for key in definitions if "◌" in key[2] for sign in signs(key[2])}
brought = {key: own_names(names) for key, names in house.brought.items() if isinstance(key, tuple) and key[1].split(".")[0] != "declared"}


def resolved(key):
    """The definition of specs/ behind a name, through modules that pass it on; None where it is none."""
    item = house.resolved(key)
    return item.key if item and item.key in definitions else None


def cited(text, names, own=None):
    keys = {names[w] for w in NAME.findall(text) if len(names.get(w, ())) == 3}
    keys |= {names[m] + (w,) for m, w in re.findall(r"(\w+)\.([^\s(){};,.]+)", text) if len(names.get(m, ())) == 2}
    if own:
        words = {own + (w,) for w in NAME.findall(text)}
        keys |= {w for w in words if w in definitions} | {mixed[w] for w in words if w in mixed}
    return {k for k in map(resolved, keys) if k}


def reach(start):
    found, left = set(), [key for key in start if key in definitions]
    while left:
        key = left.pop()
        if key not in found:
            found.add(key)
            left += cited(definitions[key], brought[key[:2]], key[:2])
    return found


def show(key):
    return f"crates/{key[0]}/specs/{key[1].replace('.', '/')}.antt:{key[2]}"


def definition(path, name):
    """The definition of specs/ that a path and a name, or a record and its field, name; None where it is none."""
    place = re.fullmatch(r"crates/(\w+)/specs/(.+)\.antt", path)
    return (place[1], place[2].replace("/", "."), name.split(".")[0]) if place else None


def stands(path, name):
    """Whether a file declares a name, or a record of it a field."""
    key = definition(path, name)
    if key and "." in name:
        field = re.escape(name.split(".", 1)[1])
        return bool(re.search(r"(?m)^  (?:pub )?" + field + r"(?=[\s:])", definitions.get(key, "")))
    if path.endswith(".rt"):
        declared = r"(?:pub(?:\(crate\))? )?(?:extern \"C\" )?(?:fn|const|static|struct|enum|trait) " + re.escape(name) + r"\b"
    else:
        declared = r"(?:(?:unfoldable|abbrev|pub|record|data) )*" + re.escape(name) + r"(?: [^=\n]*)? :"
    return bool(re.search(r"(?m)^\s*" + declared, text_of(path)))



from_contracts = set()
for path in ["crates/pair_line/src/lib.rt"] + EXPORTS:
    text = text_of(path)
    code = "\n".join(line for line in text.split("\n") if not line.startswith(("ghost use", "//")))
    from_contracts |= cited(code, imports(text))
by_contracts = reach(from_contracts)


# ---- statements and their proofs

def parameters(text):
    """The names that `(a b : T)` and `{c : T}` groups at the front of a text bind, explicit ones apart, and what follows."""
    explicit, hidden = [], []
    while text[:1] in ("(", "{"):
        depth, end = 0, 0
        while end < len(text):
            depth += (text[end] in "({") - (text[end] in ")}")
            end += 1
            if depth == 0:
                break
        names, colon, _ = text[1:end - 1].partition(" : ")
        if not colon or not re.fullmatch(r"[^\s():→]+(?: [^\s():→]+)*", names):
            break
        (explicit if text[0] == "(" else hidden).extend(names.split())
        text = text[end:].lstrip()
        if text.startswith("→"):
            text = text[1:].lstrip()
    return explicit, hidden, text


def stated(path, name):
    """The statement that a proof is declared with, as a definition of specs/, or a sentence that says why there is none."""
    text = text_of(path)
    if path.endswith(".rt"):
        contract = re.search(r"(?m)^\s*(?:pub(?:\(crate\))? )?(?:extern \"C\" )?fn " + re.escape(name) + r"\b(.*?)^\s*\{\n", text, re.S)
        found = cited(" ".join(re.findall(r"ensures (?:\w+ )?\{(.*?)\}\n", contract[1] + "\n", re.S)), imports(text)) if contract else set()
        return found or f"the contract of {name} in {path} cites no statement"
    declared = re.search(r"(?m)^( *)(?:abbrev |unfoldable )*(?:pub )?" + re.escape(name) + r" :((?: |\n).*?)\n(?=\1" + re.escape(name)
                         + r"\s|\1unfolding |\s*\n|\1--)", text, re.S)
    if not declared:
        return f"{path} declares no {name}"
    around = []
    if declared[1]:
        modules = re.findall(r"(?m)^module _ (.*?) where$", text[:declared.start()], re.S)
        around = parameters(re.sub(r"\s+", " ", modules[-1]))[0] if modules else []
    type_ = re.sub(r"--[^\n]*", "", declared[2])
    explicit, hidden, rest = parameters(re.sub(r"\s+", " ", type_).strip())
    words = rest.split()
    if not words or not all(re.fullmatch(r"[^\s():→]+", w) for w in words):
        return f"{path}: the type of {name} is no statement applied to its parameters, but `{re.sub(chr(92) + 's+', ' ', type_).strip()}`"
    names = imports(text)
    short, dot, last = words[0].rpartition(".")
    key = resolved(names[short] + (last,)) if dot and len(names.get(short, ())) == 2 else resolved(names.get(words[0], ("", "", "")))
    if not key:
        return f"{path}: the type of {name} is `{rest}`, which is no definition of specs/"
    premises = [p for p in explicit + around if p not in words[1:]]
    if premises:
        return f"{path}: {name} asks for {', '.join(premises)} beside the parameters of {words[0]}"
    return {key}


def parts(key):
    """The statements that are fields of a statement's record, or of the record that it ends in, applied to its parameters alone."""
    text = definitions[key]
    ends = {key} if re.match(r"(pub )?record ", text) else cited(text.rstrip().split("→")[-1], brought[key[:2]], key[:2])
    found = set()
    for record in ends:
        head = definitions[record].split("\n")[0]
        for type_ in re.findall(r"(?m)^  pub \S+ : (\S+(?: \S+)*)$", definitions[record]):
            words = type_.split()
            if all(re.search(r"[({]" + re.escape(w) + r" : ", head) for w in words[1:]):
                found |= cited(words[0], brought[record[:2]], record[:2])
    return found


# ---- the list

def page_rows():
    section, prefix, head = "", "", ""
    for number, line in enumerate(text_of(PAGE).split("\n"), 1):
        if line.startswith("#"):
            section, head = line.lstrip("# "), ""
            found = re.match(r"(\d+)\. |Request (\d+):|(Preface)|(The three demands)|(Beyond the documents)|(What a run shows)|(The market)|(Layers)", section)
            prefix = "" if not found else (f"{found[1]}." if found[1] else f"R{found[2]}." if found[2] else
                                           "R0." if found[3] else "D" if found[4] else "B." if found[5] else "S." if found[6] else
                                           "M." if found[7] else "L.")
        elif line.startswith("|"):
            if not head:
                head = line
                if prefix and head != COLUMNS:
                    faults.append(f"{PAGE}:{number}: the table of '{section}' has not the columns {COLUMNS}")
            elif prefix and not re.fullmatch(r"[|\-]+", line):
                yield number, prefix, [cell.strip() for cell in line.strip("|").split("|")]


numbers, promises, statements, claimed, proofs = set(), set(), set(), set(), set()
for line, prefix, cells in page_rows():
    where = f"{PAGE}:{line}"
    if len(cells) != 5:
        faults.append(f"{where}: the row has {len(cells)} columns and not 5")
        continue
    no, requirement, mark, said, proof = cells
    if not re.fullmatch(re.escape(prefix) + (r"\d\.\d+" if prefix == "D" else r"\d+"), no):
        faults.append(f"{where}: '{no}' is no number of this section, which has {prefix}..")
    if no in numbers:
        faults.append(f"{where}: the number {no} stands twice")
    numbers.add(no)
    if mark not in MARKS:
        faults.append(f"{where}: row {no} has the mark '{mark}', which is none of {', '.join(sorted(MARKS))}")
    if not requirement or not said:
        faults.append(f"{where}: row {no} has no requirement, or nothing that says it")
    named = {key for key in (definition(*c) for c in CITED.findall(said)) if key}
    if mark == "contract":
        faults += [f"{where}: row {no} is marked contract, but no exported contract reaches {show(key)}"
                   for key in sorted(named - by_contracts) if key in definitions]
    if mark == "statement":
        row = set()
        for path, name in CITED.findall(proof):
            found = stated(path, name)
            if isinstance(found, str):
                faults.append(f"{where}: row {no}: {found}")
            else:
                row |= found
                proofs.add((path, name))
        if not CITED.findall(proof):
            faults.append(f"{where}: row {no} is marked statement and names no proof")
        elif row:
            faults += [f"{where}: row {no}: what its proof states, {', '.join(k[2] for k in sorted(row))}, is not {key[2]} and does not reach it"
                       for key in sorted(named - reach(row)) if key in definitions]
        statements |= row
        claimed |= named
statements |= claimed & {part for key in statements for part in parts(key)}

page = text_of(PAGE)
for path, name in CITED.findall(page):
    if not stands(path, name):
        faults.append(f"{PAGE}: {path} has no {name}")
    key = definition(path, name)
    if key:
        promises.add(key)
for path in sorted(set(re.findall(r"`((?:crates|docs|include|tests|tools)/[^`:\s]+)`", page))):
    if not os.path.exists(path):
        faults.append(f"{PAGE}: there is no {path}")


# ---- the tables at the list's end

def table(title):
    """The rows of a table under a title, each a list of cells."""
    found = re.search(r"(?m)^## " + re.escape(title) + r"\n(?:.*\n)*?\|.*\n\|[|\-]+\n((?:\|.*\n)*)", page)
    if not found:
        faults.append(f"{PAGE}: there is no table '{title}'")
    return [[cell.strip() for cell in line.strip("|").split("|")] for line in (found[1].split("\n") if found else []) if line]


listed = {name for cells in table("The statements") for name in CITED.findall(" ".join(cells))}
faults += [f"{PAGE}: the table of statements does not have {show(key)}" for key in sorted(statements - {definition(*name) for name in listed})]
faults += [f"{PAGE}: the table of statements does not have the proof {path}:{name}" for path, name in sorted(proofs - listed)]
faults += [f"{PAGE}: the table of statements has {show(key)}, and no row marked statement does"
           for key in sorted({key for key in (definition(*name) for name in listed) if key} - statements)]
spans = {}
for number in numbers:
    section, last = number.rsplit(".", 1)
    spans[section] = max(spans.get(section, 0), int(last))
due = {f"{section}.1 to {section}.{last}" for section, last in spans.items() if section not in ("B", "S", "M", "L")}
led = {span for cells in table("From the documents' sections to the rows") for span in cells[-1].split(", ")}
faults += [f"{PAGE}: the table of sections does not have {span}" for span in sorted(due - led)]
faults += [f"{PAGE}: the table of sections has {span}, and these are not the section's rows" for span in sorted(led - due)]


# ---- the pages and their statements

def path_of(module):
    return f"crates/{module[0]}/specs/{module[1].replace('.', '/')}.antt"


calls = {}  # exported functions, and the pair program's line: (path, name): the definitions that the contract cites
for path, name in sorted(house.contracts):
    if path in EXPORTS and house.contracts[path, name].exported or (path, name) == LINE:
        text = house.contracts[path, name].text
        calls[path, name] = cited(text, imports(text_of(path)))
        pages = {DOCUMENT} if path in (EXPORTS_OF_DOCUMENT, LINE[0]) else PAGES
        faults += [f"{path}: the contract of {name} cites {show(key)}, which is on no page that it may cite"
                   for key in sorted(calls[path, name]) if key[:2] not in pages]
        if not calls[path, name]:
            faults.append(f"{path}: the contract of {name} cites nothing of a page")
        if "Rattle." in text:
            faults.append(f"{path}: the contract of {name} names a module of this repository")
for path in EXPORTS + [LINE[0]]:
    pages = {DOCUMENT} if path in (EXPORTS_OF_DOCUMENT, LINE[0]) else PAGES
    for module in re.findall(r"(?m)^ghost use (\S+?)(?:\.\{|;| as )", text_of(path)):
        if not OWN.match(module):
            continue
        if reader.MODULE.fullmatch(module) is None or reader.MODULE.fullmatch(module).groups() not in pages:
            faults.append(f"{path}: `ghost use` of {module}, and contracts cite the pages alone")
found = house.contracts.get(LINE)
if found and (found.clauses("ensures"), found.clauses("requires")) != (1, 0):
    faults.append(f"{LINE[0]}: {LINE[1]} has not exactly one `ensures`, or has a `requires`")
eight = [name for path, name in calls if path in (EXPORTS_OF_DOCUMENT, LINE[0])]
if len(eight) != 8:
    faults.append(f"document 01 has eight functions, and {len(eight)} are found: {', '.join(eight)}")
together = 0
for module, allowed in ALLOWED.items():
    path = path_of(module)
    lines = text_of(path).rstrip("\n").split("\n")
    together += len(lines)
    if len(lines) > LINES[module]:
        faults.append(f"{path} has {len(lines)} lines, more than {LINES[module]}")
    for number, line in enumerate(lines, 1):
        if len(line) > WIDTH and not line.startswith("use "):
            faults.append(f"{path}:{number}: the line has {len(line)} characters, more than {WIDTH}")
        if re.match(r"\s*(?:pub )?use ", line):
            place = reader.MODULE.fullmatch(re.split(r"\.\{| as ", line.split("use ", 1)[1])[0])
            if OWN.search(line) and not (place and place.groups() in allowed) and not (module == SECOND and line in ENUM):
                faults.append(f"{path}:{number}: it imports {line.split()[1].split('.{')[0]} of this repository")
        elif "Rattle." in line.split("--")[0]:
            faults.append(f"{path}:{number}: it names a module of this repository")
if together > TOGETHER:
    faults.append(f"the pages and their statements have {together} lines together, more than {TOGETHER}")
of_calls = {key for keys in calls.values() for key in keys}
over_pages = {key for key in statements if key[:2] in LINES}
alive = reach(of_calls | over_pages)
faults += [f"{show(key)} is reached by no exported contract, nor that of the line, and by no statement over the pages"
           for key in sorted(definitions) if key[:2] in LINES and key not in alive]
faults += [f"{show(key)} is reached by a page or a statement over the pages, and stands in none"
           for key in sorted(alive) if key[:2] not in LINES and key not in reach({ENUM_NUMBERS}) | {DATA} and key[:2] != ("prime", "Prime")]


# ---- inner and outer definitions

reached = reach(promises | from_contracts)
inner = {key for key in definitions if key[1].startswith("Inner.")}
faults += [f"{show(key)} is inner, and a promise reaches it" for key in sorted(reached & inner)]
for (crate, module), names in sorted(brought.items()):
    if not module.startswith("Inner.") and any(key[:2] == (crate, module) for key in reached):
        faults += [f"crates/{crate}/specs/{module.replace('.', '/')}.antt uses {place[1]} of {place[0]}, which is inner"
                   for place in sorted(set(names.values())) if place[1].startswith("Inner.")]

# workings: what the functions meet that exported calls and the line pass on to, and laws
passed_on = set()
for path, name in sorted(calls):
    body = re.search(r"(?ms)^pub (?:extern \"C\" )?fn " + name + r"\b.*?^\{\n(.*?)^\}", text_of(path))
    for called in re.findall(r"((?:\w+::)*\w+)\(", body[1] if body else ""):
        crate, name = (called.split("::")[0] if "::" in called else path.split("/")[1]), called.split("::")[-1]
        for (place, function), contract in sorted(house.contracts.items()):
            if function == name and place.startswith(f"crates/{crate}/src/"):
                brings = {word: key for word, key in imports(text_of(place)).items() if word not in contract.hidden()}
                passed_on |= cited(re.sub(r"\bfn \w+", "fn", contract.text, count=1), brings)
proved = set()
for path in glob.glob("crates/*/proofs/**/*.antt", recursive=True):
    text = text_of(path)
    names = imports(text)
    for type_ in re.findall(r"(?m)^\s*(?:pub )?[^\s:]+ : (?:.*→ )?([^\s():→]+)(?: [^\s():→]+)*$", text):
        short, dot, last = type_.rpartition(".")
        key = names.get(short, ()) + (last,) if dot else names.get(type_, ())
        if len(key) == 3:
            proved.add(resolved(key))
faults += [f"{show(key)} is a law, and no proof is declared with it" for key in sorted(LAWS - proved)]
faults += [f"{show(key)} is a law, and a row names it as a statement" for key in sorted(LAWS & statements)]
workings = reach(passed_on | LAWS) - reached
faults += [f"{show(key)} is reached by no promise and is no working: it belongs in Inner/"
           for key in sorted(set(definitions) - inner - reached - workings) if key[:2] not in LINES]


# ---- nothing that a contract says lies in proofs/

PROOFS = re.compile(r"Rattle\.(?!(?:core|std)\.)\w+\.proofs\b|\b(?!(?:core|std)::)\w+::proofs\b")
HINT = re.compile(r"#!?\[tactic\([^\]]*\)\]")  # laws that a function hands to the search: no part of what it says

for path in sorted(glob.glob("crates/*/src/**/*.rt", recursive=True) + glob.glob("crates/*/specs/**/*.antt", recursive=True)):
    code = re.sub(r"(?m)//.*$" if path.endswith(".rt") else r"(?m)--.*$", "", text_of(path))
    code = HINT.sub("", code) if path.endswith(".rt") else code
    faults += [f"{path} names {name}, and nothing that a contract says may lie in proofs/" for name in sorted(set(PROOFS.findall(code)))]


# ---- exported functions

exported = 0
for path in EXPORTS:
    code = re.sub(r"(?m)^\s*//.*$", "", text_of(path))
    for part in re.split(r"(?m)^pub extern \"C\" fn ", code)[1:]:
        exported += 1
        name = re.match(r"\w+", part)[0]
        ensures, requires = (len(re.findall(rf"\b{word}\*? (?:\w+ )?\{{", part)) for word in ("ensures", "requires"))
        if ensures != 1:
            faults.append(f"{path}: the exported {name} has {ensures} `ensures` and not exactly one")
        if requires:
            faults.append(f"{path}: the exported {name} has a `requires`")


# ---- edits that make a statement false

# An edit stands for the statement of that name in its crate; where the crate has several of the name, for the one whose file it edits;
# and for one in another crate where no other statement, and no definition of the edit's crate, has the name.
falsified = {}  # name: the crate of each edit that says so, and the files that it edits
for path in sorted(glob.glob("crates/*/must-fail/*.edit")):
    files = set(re.findall(r"(?m)^file: (\S+)", text_of(path)))
    for names in re.findall(r"(?m)^# Falsifies ([^:\n]+):", text_of(path)):
        for name in re.split(r",\s*|\s+and\s+", names):
            falsified.setdefault(name.strip().split(".")[0], []).append((path.split("/")[1], files))
for key in sorted(statements | LAWS):
    same = [other for other in statements | LAWS if other[2] == key[2]]
    own = f"specs/{key[1].replace('.', '/')}.antt"
    twice = sum(1 for other in same if other[0] == key[0]) > 1
    edits = falsified.get(key[2], [])
    others = [crate for crate, _ in edits if not any((d[0], d[2]) == (crate, key[2]) for d in definitions)]
    if not (any(crate == key[0] and (not twice or own in files) for crate, files in edits) or len(same) == 1 and others):
        faults.append(f"{show(key)} is a {'law' if key in LAWS else 'statement'}, and no must-fail edit says `# Falsifies {key[2]}: ..`")


# ---- names in the landing notes

sources = [p for part in ("src", "specs", "proofs") for p in glob.glob(f"crates/*/{part}/**/*", recursive=True) if p.endswith((".rt", ".antt"))]
everything = "\n".join(text_of(p) for p in sources)
today = set(re.findall(r"[^\s(){};,.:`\"]+", everything))
today |= {os.path.basename(p)[:-len(".edit")] for p in glob.glob("crates/*/must-fail/*.edit")}
today |= set(os.listdir("crates"))
today |= {w for p in sources if p.endswith(".antt") for w in (os.path.basename(p), os.path.basename(p)[:-len(".antt")])}


def spelled(word):
    """A name in the spellings that it may have since tools/port-names: snake case for mixed case, `_` for some of its dashes."""
    def snake(part):
        part = re.sub(r"(?<=[a-z0-9])([A-Z]+)(?=[^a-zA-Z]|$)", lambda m: "_" + m[1].lower(), part) if part[:1].islower() else part
        return re.sub(r"(?<=[a-z0-9])([A-Z])(?=[a-z0-9])", lambda m: "_" + m[1].lower(), part) if part[:1].islower() else part
    made = [""]
    for part in word.replace("′", "'").split("-"):
        made = [start + dash + snake(part) for start in made for dash in (("-", "_") if start else ("",))]
    return {word, *made}
NEWER = f"{NOTES}/README.md"
mapped = set()
for line in text_of(NEWER).split("\n"):
    cells = [cell.strip() for cell in line.strip("|").split("|")]
    if line.startswith("|") and len(cells) == 3:
        mapped |= set(re.findall(r"`([^`]+)`", cells[1]))
        for path, name in CITED.findall(cells[2]):
            if not stands(path, name):
                faults.append(f"{NEWER}: {path} has no {name}")
        for path in re.findall(r"`(crates/[^`:\s]+)`", cells[2]):
            if not os.path.exists(path):
                faults.append(f"{NEWER}: there is no {path}")
for path in sorted(set(glob.glob(f"{NOTES}/*.md")) - {NEWER}):
    for name in sorted(set(re.findall(r"`([^`]+)`", text_of(path)))):
        known = os.path.exists(name) if "/" in name else all(spelled(w) & today for w in name.replace("::", " ").split())
        if not known and name not in mapped:
            faults.append(f"{path}: `{name}` is no name of today, and {NEWER} does not say what it became")

for fault in faults:
    print(fault, file=sys.stderr)
beyond = reached - alive
print(f"promises: {len(numbers)} rows, {len(statements)} statements, {exported} exported calls; the pages and their statements have "
      f"{len(alive)} definitions, other promises reach {len(beyond)} in {len({k[:2] for k in beyond})} files; {len(workings)} more are "
      f"workings and {len(inner)} in {len({k[:2] for k in inner})} files are inner")
sys.exit(1 if faults else 0)
