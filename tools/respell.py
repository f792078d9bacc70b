#!/usr/bin/env python3
"""Brings the repository's own antt names to one spelling: snake case, types and modules in upper camel case, a prime as an apostrophe.

Run once, at the top. A name declared in a file of specs/ or proofs/ in lower camel case or with a hyphen gets underscores. Where that would be
another name's spelling, the camel case one (a definition) has it, and the other (a lemma) ends in `_lem`. Names of the library, names that
the proofs of functions are made with, and names of src/ stay.
"""
import collections
import os
import re

TOKEN = re.compile(r"[^\s(){}\[\]@\";,]+")
USE = re.compile(r"^\s*(?:pub |ghost )?use ([^\s{;]+?)(?:\.\{([^}]*)\})?(?: as (\S+?))?;?$", re.M)
DECLARED = re.compile(r"^(\s*)((?:pattern |unfoldable |abbrev |pub |axiom )*)([^\s(){}:=]+(?: [^\s(){}:=]+)*)(?: \{[^}]*\})? :(?:\s|$)")
SPLIT = re.compile(r"(\.(?=[^\d.])|(?<=\d)\.(?=\d)|\.)")


def comment(line):
    m = re.search(r"(^|\s)--(\s|$|-)", line)
    return (line, "") if not m else (line[: m.start()], line[m.start():])


def bare(text):
    return "\n".join(re.sub(r'"[^"]*"', '""', comment(l)[0]) for l in text.split("\n"))


def odd(n):
    return bool(re.match(r"^[a-z]", n)) and bool(("-" in n[1:-1] and re.match(r"^[a-zA-Z0-9_\-'₀-₉ℕ]*$", n)) or re.search(r"[a-z0-9₀-₉][A-Z]", n))


def snake(n):
    return re.sub(r"(?<=[a-z0-9₀-₉])([A-Z])", lambda m: "_" + m[1].lower(), n.replace("-", "_"))


def parts(text):
    return [y for x in TOKEN.findall(text) for y in SPLIT.split(x) if y and y != "."]


def read(ending):
    out = {}
    for d, _, fs in os.walk("crates"):
        if "/out" in d:
            continue
        for f in fs:
            if f.endswith(ending):
                out[os.path.join(d, f)] = open(os.path.join(d, f), encoding="utf8").read()
    return out


def library(text):
    names = set()
    for m in USE.finditer(bare(text)):
        if m[2] and (not m[1].startswith("Rattle.") or m[1].startswith("Rattle.std")):
            for x in m[2].split(","):
                names.update(x.strip().split(" as "))
    return names


def proof(path):
    return path.endswith("/Proof.antt")


antt, rt = read(".antt"), read(".rt")
declared, library_names, seen = collections.Counter(), set(), collections.Counter()
for path, text in antt.items():
    library_names |= library(text)
    for line in bare(text).split("\n"):
        if line.strip().startswith("use "):
            continue
        m = DECLARED.match(line)
        if m and not (proof(path) and ("tie." in line or "statement" in line)):
            declared.update(n for n in m[3].split() if n != "let")
    seen.update(parts(bare(text)))
library_names = {n for n in library_names if n}
own = {n for n in declared if odd(n)} - library_names
turned = collections.defaultdict(set)
for n in own:
    turned[snake(n)].add(n)
rename = {}
for to, names in turned.items():
    camel = sorted(n for n in names if "-" not in n)
    dashed = sorted(n for n in names if "-" in n)
    for n in camel:
        rename[n] = to
    taken = bool(camel) or to in declared or to in library_names
    for n in dashed:
        rename[n] = to + "_lem" if taken else to
    if camel and to in declared:
        rename[to] = to + "_lem"
clash = collections.Counter(rename.values())
again = {a: b for a, b in rename.items() if clash[b] > 1}
assert not again, again


def turn(token, names, stay):
    out = SPLIT.split(token)
    return "".join(x if x in stay else names.get(x, x) for x in out)


def turn_text(text, names, stay):
    return TOKEN.sub(lambda m: turn(m[0], names, stay), text)


camel_only = {a: b for a, b in rename.items() if re.search(r"[a-z0-9₀-₉][A-Z]", a)}
for path, text in antt.items():
    stay = library(text)
    lines = []
    for line in text.split("\n"):
        code, note = comment(line)
        if code.lstrip().startswith(("use ", "pub use ")) and "{" in code:
            head, rest = code.split("{", 1)
            code = head + "{" + (turn_text(rest, rename, set()) if head.split("use ", 1)[1].startswith("Rattle.") and ".std." not in head else rest)
        elif code.lstrip().startswith(("use ", "pub use ", "mod ", "pub mod ")):
            pass
        else:
            code = "".join(x if x.startswith('"') else turn_text(x, rename, stay) for x in re.split(r'("[^"]*")', code))
        lines.append(code + turn_text(note, camel_only, set()))
    new = "\n".join(lines)
    if new != text:
        open(path, "w", encoding="utf8").write(new)


def turn_source(text, names):
    out = []
    for line in text.split("\n"):
        code, mark, note = line.partition("//")
        if '"' in code:
            code, mark, note = line, "", ""
        if code.lstrip().startswith("ghost use"):
            code = turn_text(code, names, set()) if ".std." not in code else code
        elif '"' not in code:
            code = turn_text(code, names, set())
        out.append(code + mark + turn_text(note, camel_only, set()))
    return "\n".join(out)


for path, text in rt.items():
    cited = set()
    for m in USE.finditer(text):
        if m[2] and m[1].startswith("Rattle.") and not m[1].startswith("Rattle.std"):
            cited.update(x.strip() for x in m[2].split(","))
    dashed = {a: b for a, b in rename.items() if "-" in a and a in cited}
    lem = {a: b for a, b in rename.items() if b == a + "_lem" and a in cited}
    new = turn_source(text, {**camel_only, **dashed, **lem})
    if new != text:
        open(path, "w", encoding="utf8").write(new)

for path, text in read(".edit").items():
    new = turn_text(text, camel_only, set())
    if new != text:
        open(path, "w", encoding="utf8").write(new)

for d in [".", "docs", "docs/landings"] if os.path.isdir("docs/landings") else [".", "docs"]:
    for f in sorted(os.listdir(d)):
        if f.endswith(".md") and not f.startswith("PORT"):
            path = os.path.join(d, f)
            text = open(path, encoding="utf8").read()
            new = re.sub(r"`[^`\n]*`", lambda m: turn_text(m[0].replace("`", ""), rename, set()).join("``"), text)
            if new != text:
                open(path, "w", encoding="utf8").write(new)

print(len(rename), "names respelled;", sum(b.endswith("_lem") and not a.endswith("lem") for a, b in rename.items()), "of them end in _lem")
