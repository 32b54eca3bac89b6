#!/usr/bin/env python3
"""Lists the places in crates/*/src where an older form may stand, by text: usage: tools/design_places.py [FOLDER]

A line for each place, and at the end a count for each kind. It finds candidates; docs/DESIGN-PASS.md says what each is.
Kinds 1 to 7 are those of that page; 8 counts the files of proofs."""

import difflib
import itertools
import os
import re
import sys
from collections import defaultdict

ROOT = sys.argv[1] if len(sys.argv) > 1 else "."
TOKEN = re.compile(r"[A-Za-z_]\w*|\d\w*|[^\s\w]")
WORDS = set("fn let mut match if else for in while loop return break continue impl pub self Self Some None Ok Err as".split())


def sources():
    for folder, _, names in sorted(os.walk(os.path.join(ROOT, "crates"))):
        parts = os.path.relpath(folder, ROOT).split(os.sep)
        if len(parts) > 2 and parts[2] == "src":
            for name in sorted(names):
                if name.endswith(".rt"):
                    path = os.path.join(folder, name)
                    with open(path, encoding="utf-8") as f:
                        yield os.path.relpath(path, ROOT), f.read()


def plain(text):
    """The text with comments and strings blanked, lines kept."""
    text = re.sub(r"//[^\n]*", "", text)
    return re.sub(r'b?"(?:\\.|[^"\\])*"', '""', text)


def block(text, at):
    """The text from the brace at `at` to the one that closes it."""
    deep = 0
    for i in range(at, len(text)):
        deep += (text[i] == "{") - (text[i] == "}")
        if deep == 0:
            return text[at : i + 1]
    return text[at:]


def functions(path, text):
    """Name, line, parameters, clauses and body of each function that has a body."""
    for m in re.finditer(r"\bfn (\w+)(?:<[^(]*>)?\(", text):
        end, deep = m.end(), 1
        while deep:
            deep += (text[end] == "(") - (text[end] == ")")
            end += 1
        parameters = text[m.end() : end - 1]
        clauses, at = [], end
        while True:
            c = re.compile(r"\s*(requires|ensures)\*?(?: (\w+))? (?=\{)").match(text, re.compile(r"[^{;]*?(?=\s*(?:requires|ensures|\{|;))").match(text, at).end())
            if not c:
                break
            inner = block(text, c.end())
            clauses.append((c[1], " ".join(inner[1:-1].split())))
            at = c.end() + len(inner)
        brace = re.compile(r"[^{;]*").match(text, at).end()
        if brace < len(text) and text[brace] == "{":
            yield m[1], text.count("\n", 0, m.start()) + 1, parameters, clauses, block(text, brace)


def shape(body):
    """The tokens of a body with its own names numbered in the order in which they come."""
    names, out = {}, []
    for t in TOKEN.findall(body):
        if re.match(r"[A-Za-z_]", t) and t not in WORDS:
            t = "n%d" % names.setdefault(t, len(names))
        elif t[0].isdigit():
            t = "0"
        out.append(t)
    return out


found = defaultdict(list)


def note(kind, path, line, what):
    found[kind].append((path, line, " ".join(what.split())[:110]))


bodies, structs, clauses_by, parameters_by = [], defaultdict(set), defaultdict(set), defaultdict(set)
for path, source in sources():
    text = plain(source)
    crate = path.split(os.sep)[1]

    def lines(kind, pattern):
        for m in re.finditer(pattern, text, re.M):
            note(kind, path, text.count("\n", 0, m.start()) + 1, source.split("\n")[text.count("\n", 0, m.start())])

    lines("1 a number as an error", r"Result<[^<>;{]*(?:<[^<>]*>)?[^<>;{]*, (?:u8|u16|u32|u64|usize|bool)>")
    lines("1 a number for a kind", r"^[ \t]*(?:pub )?(?:tag|kind|width|code): (?:u8|u16|u32),$")
    lines("1 an own enum", r"^[ \t]*(?:pub(?:\(\w+\))? )?enum \w+")
    lines("1 a yes or no beside a written value", r"fn \w+\([^)]*&mut [^)]*\) -> bool")
    lines("3 while", r"\bwhile\b")
    lines("3 for over numbers", r"\bfor \w+ in [^{\n]*\.\.")
    lines("3 a search or a test of all by a loop", r"\bfor [^{\n]+\{\s*if [^{]*\{\s*return [\w()]+;\s*\}\s*\}")
    lines("3 a counter by hand", r"^[ \t]*\w+ \+= \d+;")
    lines("4 Ok as Ok, Err as another Err", r"Ok\((\w+)\) => Ok\(\1\),")
    lines("4 a trait by hand", r"^impl(?:<[^>]*>)? (?:Clone|Copy|PartialEq|Eq|PartialOrd|Ord|Hash|Debug|Default)(?:<[^>]*>)? for")
    lines("4 Some, or None, by a test", r"\{ Some\(\w+\) \} else \{ None \}")
    lines("6 a search by halving", r"let middle\b")
    lines("6 a length or a place beside a table", r"^[ \t]*(?:pub )?(?:len|head|first_link|link_count): usize,$")
    lines("6 a filled list with its count", r"\w+\[count\] = ")
    lines("7 a switch on a step", r"match (?:axis|tag|record\.tag|step|op)\b")
    lines("7 a table of functions", r"\[fn\(|: fn\(")
    for m in re.finditer(r"\bstruct (\w+)(?:<[^>]*>)? \{", text):
        fields = tuple(re.findall(r"^\s*(?:pub(?:\(\w+\))? )?(\w+: [^\n]+),$", re.sub(r"ghost [^\n]*\n", "", block(text, m.end() - 1)), re.M))
        structs[fields].add((path, text.count("\n", 0, m.start()) + 1, m[1]))
    for name, line, parameters, clauses, body in functions(path, text):
        if "#[test]" in text.split("\n")[max(0, line - 2)]:
            continue
        bodies.append((path, line, name, shape(body)))
        if re.fullmatch(r"\{\s*match \w+ \{(?:\s*[\w:]+ => [\w:()]+,)+\s*\}\s*\}", body):
            note("4 a conversion by cases", path, line, name)
        for kind, clause in clauses:
            if kind == "requires":
                key = re.sub(r"\(view \w+(?:\.\w+)*\)", "(view _)", re.sub(r"\.(?:now|old|new|entry)\b", "", clause))
                clauses_by[(crate, key)].add((path, line, name))
        own = sorted(set(re.findall(r"(\w+): ([^,]+)", parameters)))
        for pair in itertools.combinations(own, 2):
            parameters_by[(crate,) + pair].add((path, line, name))

for a, b in itertools.combinations(bodies, 2):
    if min(len(a[3]), len(b[3])) >= 24 and max(len(a[3]), len(b[3])) <= 1.2 * min(len(a[3]), len(b[3])):
        if difflib.SequenceMatcher(None, a[3], b[3], False).ratio() >= 0.9:
            note("2 bodies of one shape", a[0], a[1], "%s ~ %s:%d %s" % (a[2], b[0], b[1], b[2]))
for fields, where in sorted(structs.items()):
    if fields and len(where) >= 2:
        first = min(where)
        note("2 structs of the same fields", first[0], first[1], "%s {%s}" % (", ".join(sorted(w[2] for w in where)), ", ".join(fields)))
for (crate, clause), where in sorted(clauses_by.items()):
    if len(where) >= 3:
        first = min(where)
        note("5 a fact required by three or more", first[0], first[1], "%d times: %s" % (len(where), clause))
for (crate, p, q), where in sorted(parameters_by.items()):
    if len(where) >= 3 and p[1].lstrip("&") not in ("HostRuntime", "Global") and q[1].lstrip("&") not in ("HostRuntime", "Global") and "Abort" not in p[1] + q[1]:
        first = min(where)
        note("5 parameters together in three or more", first[0], first[1], "%d times: %s: %s, %s: %s" % (len(where), p[0], p[1], q[0], q[1]))

for kind in sorted(found):
    print("## " + kind)
    for path, line, what in found[kind]:
        print("%s:%d: %s" % (path, line, what))
    print()
proofs = [os.path.join(f, n) for f, _, ns in os.walk(os.path.join(ROOT, "crates")) if "/proofs" in f and "/out/" not in f for n in ns if n.endswith(".antt")]
total = sum(len(open(p, encoding="utf-8").read().split("\n")) - 1 for p in proofs)
answers = sum(len(re.findall(r"^(?:abbrev )?pub \S+ : goal\.", open(p, encoding="utf-8").read(), re.M)) for p in proofs)
for kind in sorted(found):
    print("%4d  %s" % (len(found[kind]), kind))
print("%4d  8 files of proofs, %d lines, %d answers and invariants" % (len(proofs), total, answers))
