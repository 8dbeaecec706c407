#!/usr/bin/env python3
"""Spells the repository's own definitions, lemmas and fields as Rattle now spells names: snake case, as `numbers_from` for `numbersFrom`
and `gate_is_queue` for `gate-is-queue`. A type, a fact and a module keep their capital. A dash beside a part with a capital stays, as
in `All-is`.

usage: tools/respell.py [--check] [FOLDER]

FOLDER is the repository (default: the current one), as the kit's port.py leaves it. It rewrites crates/*/specs, crates/*/proofs, the
clauses and `ghost use` items of crates/*/src, crates/*/must-fail, and the code spans of docs/*.md and README.md. Names of goals, which Rattle
makes, stay. --check writes nothing and lists the names that would fall together.
"""

import glob
import os
import re
import sys

NAME = r"[^\s(){}.;,@\"«»`]+"
TOP = re.compile(rf"(?m)^((?:abbrev |unfoldable |opaque |pub |record |data )*)({NAME})((?: *\{{[^{{}}\n]*\}})*(?: *\([^()\n]*\))*) :(?= |$)([^\n]*)")
FIELD = re.compile(rf"(?m)^ +(?:pub )?({NAME}) :(?= )")
MODULE = re.compile(rf"(?m)^(?:pub )?mod ({NAME})")
# A type that Rattle states: its name stays.
MADE = re.compile(r" (?:goal|need|given|tie)\.|.*\bstatement M\b")
# Two names that would otherwise fall together with another one, each with its own spelling.
APART = {
    n: n.replace("-", "_") + "_lem"
    for n in """
        years-told worked-numbers valid-in same-ticket refused-lent place-numbers place-number open-refusals open-numbers new-colour leaves-told
        leave-numbers in-region first-valid count-sum call-lent bin-is below-issue alike-lent
    """.split()
} | {"code-of": "code_same"}
# Names in snake case already that such a name would meet in its file.
TOO = {"place_is": "place_is_lem", "after_line": "after_line_lem", "not_stopped": "is_not_stopped"}


def snake(name):
    if not re.search(r"[a-z0-9][A-Z]|-", name):
        return name
    if name in APART:
        return APART[name]
    parts = name.split("-")
    out = parts[0]
    for left, right in zip(parts, parts[1:]):
        out += ("-" if left[:1].isupper() or right[:1].isupper() else "_") + right
    if name[:1].isupper():
        return out
    return re.sub(r"(?<=[a-z0-9])[A-Z]", lambda m: "_" + m[0].lower(), out) if re.match(r"[a-z]+[A-Z]|[a-z0-9_]+[A-Z]", out) else out


def files(root, *patterns):
    for pattern in patterns:
        for p in sorted(glob.glob(os.path.join(root, pattern), recursive=True)):
            if os.path.isfile(p) and "/out/" not in p:
                yield p


def antt(root):
    return list(files(root, "crates/*/specs/**/*.antt", "crates/*/proofs/**/*.antt"))


def read(p):
    with open(p, encoding="utf-8", newline="") as f:
        return f.read()


def of_function(p):
    return os.path.basename(p) in ("Proof.antt", "Answers.antt", "Invariants.antt")


def table(root):
    tops, fields = {}, {}
    for p in antt(root):
        text = read(p)
        made = made_in(text)
        for m in TOP.finditer(text):
            n = m.group(2)
            if n not in made and "+" not in n:
                tops.setdefault(n, set()).add(p)
        if not of_function(p):
            for m in FIELD.finditer(text):
                fields.setdefault(m.group(1), set()).add(p)
    turned = {n: snake(n) for n in [*tops, *fields] if snake(n) != n} | TOO
    return turned, tops, fields


def made_in(text):
    """The names of a function's proof that Rattle gives: the goals that the file answers, and the proof itself."""
    return {m.group(2) for m in TOP.finditer(text) if MADE.match(m.group(4))}


TOKEN = re.compile(rf"\"(?:[^\"\\\n]|\\.)*\"|--[^\n]*|{NAME}")


def turn_code(text, turned, fields, stay, after_dot):
    out, at = [], 0
    for m in TOKEN.finditer(text):
        w = m.group(0)
        new = w
        if w.startswith("--") and (m.start() == 0 or text[m.start() - 1] in " \n\t"):
            new = turn_comment(w, turned)
        elif w.startswith('"'):
            pass
        elif w in turned and w not in stay:
            dotted = m.start() > 0 and text[m.start() - 1] == "."
            if not dotted or after_dot(text, m.start(), w):
                new = turned[w]
        out.append(text[at : m.start()] + new)
        at = m.end()
    return "".join(out) + text[at:]


def turn_comment(text, turned):
    text = re.sub(r"`([^`\n]+)`", lambda m: "`" + turn_span(m.group(1), turned) + "`", text)
    return re.sub(r"(?<![\w-])[a-z]\w*[A-Z]\w*(?![\w-])", lambda m: turned.get(m.group(0), m.group(0)), text)


def turn_span(text, turned):
    return re.sub(NAME, lambda m: turned.get(m.group(0), m.group(0)), text)


def main(argv):
    check = "--check" in argv
    rest = [a for a in argv if a != "--check"]
    root = rest[0] if rest else "."
    turned, tops, fields = table(root)
    everything = set(tops) | set(fields)
    back = {}
    for n, new in turned.items():
        back.setdefault(new, set()).add(n)
    for new, olds in sorted(back.items()):
        if len(olds) > 1 or new in everything:
            print("together:", new, sorted(olds), "declared" if new in everything else "")
    for p in antt(root):
        text = read(p)
        words = set(re.findall(NAME, re.sub(r"--[^\n]*", "", text)))
        stay = made_in(text)
        for w in sorted(words & set(turned)):
            if w not in stay and turned[w] in words:
                print(f"meets: {os.path.relpath(p, root)}: {w} -> {turned[w]}, which the file has")
    if check:
        print(len(turned), "names")
        return 0

    for p in antt(root):
        text = read(p)
        stay = made_in(text)
        if of_function(p):
            def after_dot(t, i, w):
                return w in fields and w not in stay
        else:
            def after_dot(t, i, w):
                return True
        put(p, text, turn_code(text, turned, fields, stay, after_dot))
    for p in files(root, "crates/*/src/**/*.rt"):
        text = read(p)
        lines = []
        for line in text.split("\n"):
            at = line.find("//")
            code, comment = (line, "") if at < 0 else (line[:at], line[at:])
            lines.append(turn_code(code, turned, fields, set(), lambda t, i, w: True) + turn_comment(comment, turned))
        put(p, text, "\n".join(lines))
    for p in files(root, "crates/*/must-fail/*.edit"):
        text = read(p)
        lines = [turn_code(l, turned, fields, set(), lambda t, i, w: True) if re.match(r"(old|new):", l) else turn_comment(l, turned) for l in text.split("\n")]
        put(p, text, "\n".join(lines))
    for p in files(root, "README.md", "docs/*.md"):
        if os.path.basename(p) == "PORT.md":
            continue
        text = read(p)
        put(p, text, re.sub(r"`([^`\n]+)`", lambda m: "`" + turn_span(m.group(1), turned) + "`", text))
    return 0


def put(p, old, new):
    if old != new:
        with open(p, "w", encoding="utf-8", newline="") as f:
            f.write(new)


if __name__ == "__main__":
    raise SystemExit(main(sys.argv[1:]))
