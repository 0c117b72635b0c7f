#!/usr/bin/env python3
"""Spells the names of this repository's definitions and laws as today's Rattle spells names.

usage: tools/respell.py [--check] [--list]

A definition's words are in snake case: 'taskAt' is 'task_at'. Types and modules keep their capitals. In a law's name a
dash stays where it joins two names, as in 'apply-plan'; a plain word hangs on by an underscore, as in 'apply_kept'.
It turns the names that specs/ and proofs/ declare, wherever they stand as a whole word: in specs/ and proofs/, in the
clauses and the ghost items of src/, in the edits, and in code spans of comments and pages. It turns no name of Rust's,
no name that Rattle makes of a function, and nothing that is quoted. --list prints the table and turns nothing; --check
only says how many files would change. It says which names would fall together, and leaves those as they are.
"""
import collections
import os
import re
import sys

ROOT = os.path.dirname(os.path.dirname(os.path.realpath(__file__)))
WORD = re.compile(r'[^\s(){}.;,@"«»]+')
DECLARED = re.compile(r"(?m)^ *((?:(?:pattern|unfoldable|abbrev|axiom|pub|data|record) +)*)([^\s(){}.;,@\"«»]+)((?: +[({][^=\n]*[)}])?) +:(?: |$)")
FIELD = re.compile(r"([^\s(){}.;,@\"«»]+) +: ")
CAMEL = re.compile(r"[a-z][A-Za-z0-9]*[A-Z][A-Za-z0-9]*'*")
MADE = re.compile(r"(?m)^([^\s:]+) : tie\.")
PATH = re.compile(r"use +(Rattle\.(\w+)\.|[\w.·]+)[^\s{]*\.?\{([^}]*)\}")
# Names that get another spelling than the rule's, since the rule's is taken in a file that has both: a law that would have
# its definition's name gets '_lem', by crate; a definition that would have a field's name gets a longer one.
LAWS = {"scan": {"by_place": "by_place_lem", "in_order": "in_order_lem", "order_from": "order_from_lem"},
        "blocks": {"call_length": "call_length_lem"}, "mender": {"linked_runs": "linked_runs_lem"},
        "image": {"no_kind": "no_kind_lem"}, "executive/proofs/check/Subprograms.antt": {"sub_at": "at_sub"}}
OTHERS = {"noSub": "no_subprogram", "sameBytes": "same_bytes_at"}

# Names of mathematics after which a law may be named besides those that are declared.
KNOWN = set("append take drop length set map sum filter all any count member add sub mul div mod le lt eq ne min max "
            "suc zero and or not cons nil head tail reverse get_or cond ltb leb eqb".split())


def files(*endings):
    for top in ("crates", "tests", "docs", "tools", "."):
        start = os.path.join(ROOT, top)
        for folder, dirs, names in os.walk(start):
            dirs[:] = [] if top == "." else sorted(d for d in dirs if d not in ("out", "target", ".git"))
            for name in sorted(names):
                if name.endswith(endings):
                    yield os.path.join(folder, name)


def read(path):
    with open(path, encoding="utf-8") as f:
        return f.read()


def without_quiet(text):
    """The text without comments and strings, in as many characters."""
    return re.sub(r'"(?:[^"\\\n]|\\.)*"|(?<![^\s(){}.;,@"«»])--[^\n]*', lambda m: " " * len(m[0]), text)


def snake(word):
    """A word in snake case, where it begins with a small letter and has a capital."""
    if not CAMEL.fullmatch(word):
        return word
    word = re.sub(r"([a-z0-9])([A-Z])", lambda m: m[1] + "_" + m[2], word)
    return re.sub(r"([A-Z])([A-Z][a-z])", lambda m: m[1] + "_" + m[2], word).lower()


def declared():
    """The names that are declared, the modules that declare them, and those that Rattle makes."""
    names, made = collections.defaultdict(set), set()
    for path in files(".antt"):
        text = without_quiet(read(path))
        made |= set(MADE.findall(text))
        for m in DECLARED.finditer(text):
            names[m[2]].add(path)
        for m in re.finditer(r"record[^{=]*\{([^}]*)\}", text):
            for f in FIELD.finditer(m[1]):
                names[f[1]].add(path)
    return names, made


def foreign():
    """The names that a file of ours takes from a library."""
    out = set()
    for path in files(".antt", ".rt"):
        for m in PATH.finditer(read(path)):
            ours = m[2] and os.path.isdir(os.path.join(ROOT, "crates", m[2]))
            if not ours or re.search(r"\.(Statement|Tie|Goals|Given)\.", m[0]):
                out |= {w.split(" as ")[0].strip() for w in m[3].split(",")}
    return out


def table():
    names, made = declared()
    strange = foreign()
    parts = {snake(n) for n in names if "-" not in n} | KNOWN
    rows = {}
    for n in names:
        if n in made or n in strange or n.startswith(("invariant", "measure", "μ-", "+", "◌")):
            continue
        if "-" in n and all(p.endswith("/Proof.antt") for p in names[n]):
            continue
        words = [snake(w) for w in n.split("-")] if n.strip("-") == n else [snake(n)]
        new = words[0]
        for left, right in zip(words, words[1:]):
            joins = (left in parts or left[:1].isupper()) and (right in parts or right[:1].isupper())
            new += ("-" if joins else "_") + right
        new = OTHERS.get(n, new)
        if new != n:
            rows[n] = new
    # Names that would fall together in one file stay as they are.
    together = []
    here = collections.defaultdict(set)
    for path in files(".antt"):
        for w in WORD.findall(without_quiet(read(path))):
            here[w].add(path)
    olds = collections.defaultdict(set)
    for old, new in rows.items():
        olds[new].add(old)
    for new, several in sorted(olds.items()):
        rivals = several | ({new} if new in names else set())
        rivals = sorted(rivals)
        for i, a in enumerate(rivals):
            for b in rivals[i + 1:]:
                if here[a] & here[b]:
                    together.append((a, b, new))
    for a, b, new in together:
        for n in (a, b):
            if n in rows and "-" in n:
                rows.pop(n)
    settled = {n for names in LAWS.values() for n in names}
    still = [(a, b, new) for a, b, new in together if rows.get(a, a) == rows.get(b, b) and not {a, b} & settled]
    return rows, together, still


def turned(text, rows):
    return WORD.sub(lambda m: rows.get(m[0], m[0]), text)


def spans(text, rows):
    """Code spans of a comment or a page."""
    def one(m):
        return re.sub(r"[^\s(){}.;,@\"«»`:/]+", lambda w: rows.get(w[0], w[0]), m[0])
    text = re.sub(r"(?ms)^( *)(```+)[^\n`]*\n.*?^\1\2 *$|(`+)[^\n`]+?\3", one, text)
    return re.sub(r"(?<![\w`.])[a-z]+[a-z0-9]*[A-Z]\w*(?![\w`(])", lambda w: rows.get(w[0], w[0]), text)


def laws(path, text):
    """The text with the names of LAWS: a whole word that stands neither before a dot nor behind one."""
    for where, names in LAWS.items():
        if f"crates/{where}" in path and path.endswith(".antt"):
            for old, new in names.items():
                text = re.sub(rf"(?<![^\s(){{}},;]){old}(?![^\s(){{}},;])", new, text)
    return text


def antt(text, rows):
    out, at = [], 0
    for m in re.finditer(r'"(?:[^"\\\n]|\\.)*"|(?<![^\s(){}.;,@"«»])--[^\n]*', text):
        out.append(turned(text[at:m.start()], rows))
        out.append(m[0] if m[0].startswith('"') else spans(m[0], rows))
        at = m.end()
    return "".join(out) + turned(text[at:], rows)


def rust(text, rows):
    out, at = [], 0
    for m in re.finditer(r'//[^\n]*|b?"(?:\\.|[^"\\])*"|\b(?:requires|ensures)\s*\*?\s*(?:\w+\s*)?\{|\bghost use [^;]*;', text):
        if m.start() < at:
            continue
        out.append(text[at:m.start()])
        at = m.end()
        if m[0].startswith("//"):
            out.append(spans(m[0], rows))
        elif m[0].endswith("{"):
            depth, end = 1, m.end()
            while depth:
                depth += {"{": 1, "}": -1}.get(text[end], 0)
                end += 1
            out.append(turned(text[m.start():end], rows))
            at = end
        elif m[0].startswith("ghost use"):
            out.append(turned(m[0], rows))
        else:
            out.append(m[0])
    return "".join(out) + text[at:]


def edit(text, rows):
    lines = []
    for line in text.split("\n"):
        lines.append(spans(line, rows) if line.startswith("#") and "refused at:" not in line else turned(line, rows))
    return "\n".join(lines)


def strays(text, known):
    """Names in pages and edits that were respelled in specs/ and proofs/ before this: they are turned where the name that
    they would get is declared there."""
    def one(m):
        word = m[0]
        if word in known:
            return word
        if CAMEL.fullmatch(word):
            new = OTHERS.get(word, snake(word))
            return new if new in known else word
        dashes = [i for i, c in enumerate(word) if c == "-"]
        for choice in range(1, 2 ** len(dashes)) if len(dashes) < 5 else ():
            new = "".join("_" if c == "-" and choice >> dashes.index(i) & 1 else c for i, c in enumerate(word))
            if new in known:
                return new
        return word
    return one


def edit_strays(text, known):
    one = strays(text, known)
    return "\n".join(re.sub(r"[A-Za-z][\w'-]*", one, line) if re.match("old:|new:|# refused at:", line) else line
                     for line in text.split("\n"))


def page_strays(text, known):
    one = strays(text, known)
    return re.sub(r"(`+)[^\n`]+?\1", lambda m: re.sub(r"(?<![\w/.-])[a-z][\w'-]*(?![\w/])", one, m[0]), text)


TURN = {".antt": antt, ".rt": rust, ".edit": edit, ".md": spans}


def main(words):
    rows, together, still = table()
    if "--list" in words:
        for old, new in sorted(rows.items()):
            print(f"{old}\t{new}")
        return 0
    for a, b, new in together:
        print(f"these would fall together as {new}: {a} and {b}")
    if still:
        print(f"left to settle: {still}")
        return 1
    changed = 0
    known = set(declared()[0]) - set(rows) | set(rows.values())
    for path in files(*TURN):
        old = read(path)
        new = TURN[os.path.splitext(path)[1]](laws(path, old), rows)
        if path.endswith(".edit"):
            new = edit_strays(new, known)
        if path.endswith(".md"):
            new = page_strays(new, known)
        if new != old:
            changed += 1
            if "--check" not in words:
                with open(path, "w", encoding="utf-8") as f:
                    f.write(new)
    print(f"{len(rows)} names, {changed} files")
    return 0


if __name__ == "__main__":
    sys.exit(main(sys.argv[1:]))
