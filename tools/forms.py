#!/usr/bin/env python3
"""Lists the places in src/ that docs/DESIGN-PASS.md counts, by its points: tools/forms.py [--list POINT] [FOLDER]

Without --list it prints how many there are of each. It reads text, not the language: what it finds is looked at by hand.
"""
import re
import sys
from pathlib import Path

NONE = r"Bad|Nothing|Nowhere|Refused|Unknown|Full|Short|Barred|Other|BadBook"
FN = re.compile(r"^(?:    )?(?:pub(?:\(crate\))? )?(?:extern \"C\" )?fn (\w+)[^(]*\((.*?)\)\s*(?:->\s*([^\n{]+?))?\s*(?=requires|ensures|\{|\n)", re.S | re.M)


def sources(top):
    for path in sorted(Path(top).glob("crates/*/src/**/*.rt")):
        yield str(path.relative_to(top)), path.read_text()


def line(text, at):
    return text.count("\n", 0, at) + 1


def functions(text):
    """Each function: where it stands, its name, its parameters, its result and its body."""
    for m in FN.finditer(text):
        indent = "    " if m.group(0).startswith("    ") else ""
        begin = re.compile(rf"\{{$|^{indent}\{{$", re.M).search(text, m.end() - 1)
        end = text.find(f"\n{indent}}}", m.end() - 1)
        if begin and begin.start() < end:
            yield m.start(), m.group(1), m.group(2), (m.group(3) or "").strip(), text[begin.start():end]


def own_enums(text):
    for m in re.finditer(r"enum (\w+)[^{]*\{(.*?)\n\}", text, re.S):
        if re.search(rf"^\s*({NONE})(\(u64\))?,", m.group(2), re.M):
            yield m.start(), m.group(1)


def numbers_for_refusals(text):
    for m in re.finditer(r"Refused\(\d+\)|\b(?:refuse|need)\((?:[^()]|\([^()]*\))*?\b\d+,?\s*\)", text):
        yield m.start(), " ".join(m.group(0).split())


def numbers_for_kinds(text):
    for at, name, params, result, body in functions(text):
        if re.search(r"\b(op|pred|number): u16|\b(class|digit|number): u64", params):
            yield at, name


def none_as_number(text):
    for m in re.finditer(r"^((?: *//[^\n]*\n)+)(?=(?: *#\[[^\n]*\n)*(?: *(?:pub )?(?:fn|struct|const)))", text, re.M):
        if re.search(r"\b0 (where|for|too where)\b|, 0 where|; 0\b|0 for none", m.group(1)):
            yield m.start(), m.group(1).strip().split("\n")[0][:80]


def flags(text):
    for m in re.finditer(r"^(?:pub )?struct (\w+)[^{;]*\{(.*?)\n\}", text, re.S | re.M):
        if re.search(r": bool,|refused: u64", m.group(2)):
            yield m.start(), m.group(1)


def skeleton(body):
    body = re.sub(r"//[^\n]*", "", body)
    tokens = re.findall(r"[A-Za-z_]\w*|\d\w*|[^\s\w]", body)
    keep = {"if", "else", "while", "loop", "for", "match", "return", "let", "mut", "in"}
    return " ".join(t if t in keep or not re.match(r"\w", t) else "x" for t in tokens if t != ",")


def loops(text):
    for at, name, params, result, body in functions(text):
        for m in re.finditer(r"\b(while|loop)\b", re.sub(r"//[^\n]*", lambda c: " " * len(c.group(0)), body)):
            yield at, name


def by_hand(text):
    for at, name, params, result, body in functions(text):
        flat = " ".join(body.split())
        if re.search(r"if (\w+(?:\.len\(\))?) <=? (\w+(?:\.len\(\))?) \{ (?:return )?(?:\1|\2);? \}(?: else \{)? (?:\1|\2)(?!\w)", flat):
            yield at, name + " (min, max)"
        if result == "bool" and re.search(r"match", flat) and flat.count("=> true") + flat.count("=> false") >= 2:
            yield at, name + " (matches!)"
        if re.search(r"== false|== true", flat):
            yield at, name + " (a test of a bool)"
        if re.search(r"wrapping_\w+_(u64|usize)\(", flat):
            yield at, name + " (wrapping)"


GROUPS = {
    "kinds and words": r"\bkinds: &\[u64\],\s*words: &\[u64\]",
    "the book's kinds and words": r"book_kinds: &\[u64\],\s*book_words: &\[u64\]",
    "lines, operands, what is reached": r"lines: &mut \[u16\],\s*operands: &mut \[u64\],\s*\w+: (Reached|Turn)",
    "names, starts, every": r"starts: &\[u64\],\s*every: bool",
    "count, from, to": r"count: u64,(?:\s*own: u64,)?\s*from: u64,\s*to: u64|names: u64,\s*from: u64,\s*to: u64",
    "line kinds and operands": r"line_kinds: &\[u16\],\s*operands: &\[u64\]|kinds: &mut \[u16\],\s*operands: &mut \[u64\]",
}


def groups(text):
    for at, name, params, result, body in functions(text):
        for group, form in GROUPS.items():
            if re.search(form, params):
                yield at, f"{name} ({group})"


def buffers(text):
    for m in re.finditer(r"let mut \w+ = \[0u?\w*; ?\w+\]", text):
        yield m.start(), m.group(0)


def steps(text):
    for m in re.finditer(r"fn\([^)]*\) ->|&dyn|\[fn", text):
        yield m.start(), m.group(0)


POINTS = {
    "1 enums with a variant for none or a refusal": own_enums,
    "1 numbers for refusals": numbers_for_refusals,
    "1 numbers for kinds and operations": numbers_for_kinds,
    "1 a number that stands for none": none_as_number,
    "1 flags beside values": flags,
    "3 loops": loops,
    "4 by hand": by_hand,
    "5 parameters that travel together": groups,
    "6 buffers": buffers,
    "7 function tables": steps,
}


def twins(top):
    seen = {}
    for path, text in sources(top):
        for at, name, params, result, body in functions(text):
            form = skeleton(body)
            if form.count(" ") >= 20:
                seen.setdefault(form, []).append(f"{path}:{line(text, at)}: {name}")
    return [names for names in seen.values() if len(names) > 1]


def main():
    args = sys.argv[1:]
    point = None
    if args[:1] == ["--list"]:
        point, args = args[1], args[2:]
    top = Path(args[0] if args else ".")
    for title, finds in POINTS.items():
        places = [f"{p}:{line(t, at)}: {what}" for p, t in sources(top) for at, what in finds(t)]
        if point is None:
            print(f"{len(places):5} {title}")
        elif title.startswith(point):
            print(title)
            print("\n".join("  " + place for place in places))
    same = twins(top)
    if point is None:
        print(f"{sum(len(s) for s in same):5} 2 functions with another's form, in {len(same)} groups")
    elif point.startswith("2"):
        for names in same:
            print("  " + "\n  ".join(names) + "\n")


if __name__ == "__main__":
    main()
