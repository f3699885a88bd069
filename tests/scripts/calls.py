#!/usr/bin/env python3
"""usage: tests/scripts/calls.py

Finds what a new call lacks. Fails, with a sentence for each fault, unless every call that crates/expander/src exports

- is declared in include/expander.h, under a comment that lists its numbers; one that takes nothing, `(void)`, has none;
- stands in the table of calls of a test (tests/calls/NAME_test.c) that a step of tests/run compiles; one that takes nothing is called there;
- is called by tests/fuzz/fuzz.c;
- has a text in companion/texts.c for each number above 0 that the header lists, and for no other;
- has its crate in the table of tools/fast (STEPS_OF_CRATE), with the step that tests it; a call that passes on to no crate has `expander`.
"""
import glob
import importlib.machinery
import importlib.util
import os
import re
import sys

if sys.argv[1:] in (["--help"], ["-h"]):
    print(__doc__.strip())
    sys.exit(0)
if len(sys.argv) != 1:
    print("usage: tests/scripts/calls.py", file=sys.stderr)
    sys.exit(2)
os.chdir(os.path.join(os.path.dirname(os.path.abspath(__file__)), "..", ".."))
sys.dont_write_bytecode = True


def read(path):
    with open(path, encoding="utf-8") as file:
        return file.read()


def exported():
    """By exported call, without expander_: the crates that its body names."""
    found = {}
    for path in sorted(glob.glob("crates/expander/src/*.rt")):
        code = re.sub(r"(?m)//.*$", "", read(path))
        for part in re.split(r"(?m)^pub extern \"C\" fn expander_", code)[1:]:
            body = part.partition("\n{")[2].partition("\n}")[0]
            found[re.match(r"\w+", part)[0]] = set(re.findall(r"\b(\w+)::", body)) or {"expander"}
    return found


def declared():
    """By call of the header: the numbers that its comment lists."""
    found = {}
    declaration = r"/\*\*((?:(?!\*/).)*)\*/\s*\n[a-z][^;{]*?\bexpander_(\w+)\((void\))?"
    for comment, name, nothing in re.findall(declaration, read("include/expander.h"), re.S):
        returns = comment.partition("Returns:")[2].partition(" In: ")[0]
        found[name] = {int(number) for number in re.findall(r"\b(\d+) [A-Z]{2}[A-Z_]+\b", returns)} or ({0} if nothing else set())
    return found


def steps():
    """By call: the steps of tests/run whose test has it in its table of calls."""
    run, found = read("tests/run"), {}
    names = set(re.findall(r"\b(\w+):\d+", re.search(r"(?m)^steps=\(([^)]*)\)", run)[1]))
    for path in sorted(glob.glob("tests/calls/*_test.c")):
        subject = os.path.basename(path)[:-len("_test.c")]
        step = "calls" if subject == "expander" else subject
        compiled = re.search(rf"(?m)^{step}\(\) \{{ subject {subject}\b", run) or f"tests/calls/{subject}_test.c" in run
        table = re.search(r"struct call calls\[CALLS\] = \{(.*?)\};", read(path), re.S)
        listed = re.findall(r"\{\"(\w+)\",", table[1]) + re.findall(r"\bexpander_(\w+)\(\) ==", read(path)) if table else []
        for name in listed if compiled and step in names else []:
            found.setdefault(name, set()).add(step)
    return found


def texts():
    """By call: the numbers for which a row of the companion's texts names it."""
    text, found = read("companion/texts.c"), {}
    lists = {name: value for name, value in re.findall(r"(?m)^#define (\w+) (.*)$", text)}
    word = r"(?:\"[^\"]*\"|[A-Z_]+)"
    for number, names in re.findall(rf"\{{(\d+), ({word}(?: {word})*),", text):
        while re.search(r"[A-Z]", names):
            names = re.sub(r"\b[A-Z][A-Z_]*\b", lambda one: lists[one[0]], names)
        for name in names.replace('"', " ").split():
            found.setdefault(name, set()).add(int(number))
    return found


def fast():
    """The table of tools/fast: by crate, the steps."""
    loader = importlib.machinery.SourceFileLoader("fast", os.path.abspath("tools/fast"))
    module = importlib.util.module_from_spec(importlib.util.spec_from_loader("fast", loader))
    loader.exec_module(module)
    return {crate: set(words.split()) for crate, words in module.STEPS_OF_CRATE.items()}


calls, header, tested, said, table = exported(), declared(), steps(), texts(), fast()
fuzzed = set(re.findall(r"\bexpander_(\w+)", re.sub(r"/\*.*?\*/|//[^\n]*", "", read("tests/fuzz/fuzz.c"), flags=re.S)))
faults = [f"include/expander.h declares expander_{name}, and crates/expander exports no such call" for name in header if name not in calls]
for name, crates in sorted(calls.items()):
    call = f"expander_{name}"
    if not header.get(name):
        faults.append(f"include/expander.h does not declare {call} under a comment that lists its numbers")
    if name not in tested:
        faults.append(f"no step of tests/run tests {call}: no tests/calls/NAME_test.c that a step compiles has it in its table of calls")
    if name not in fuzzed:
        faults.append(f"tests/fuzz/fuzz.c does not call {call}")
    due, given = header.get(name, set()) - {0}, said.get(name, set())
    for number in sorted(due ^ given):
        faults.append(f"companion/texts.c has {'no' if number in due else 'a'} text for {call} and {number}, which the header "
                      f"{'lists' if number in due else 'does not list'}")
    if not any(tested.get(name, set()) & table.get(crate, set()) for crate in crates):
        wanted, of = " or ".join(sorted(tested.get(name, {"a step"}))), " or ".join(sorted(crates))
        faults.append(f"tools/fast does not run {wanted} for the crate of {call}: STEPS_OF_CRATE has to name it for {of}")
for fault in faults:
    print(f"tests/scripts/calls.py: {fault}", file=sys.stderr)
print(f"calls: {len(calls)} exported calls, each with a test, a place in the fuzz target, the companion's texts and tools/fast's steps"
      if not faults else f"calls: {len(faults)} faults")
sys.exit(1 if faults else 0)
