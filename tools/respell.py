#!/usr/bin/env python3
"""Brings the repository's own definitions, lemmas and fields to today's spelling: words in snake case, types and modules in camel case.

usage: tools/respell.py [--table] [--anyway] [FOLDER]      FOLDER: a checkout that port.py has turned; this folder's if left out

Run once, after port.py. It reads which names specs/ and proofs/ declare, and writes each that is in camel case with a small first letter, or has a dash, in
snake case, wherever it stands in .antt files and in the clauses and ghost lines of .rt files. What Rattle makes (goals, steps, the modules of functions) and
names of src/ are left alone. It stops, and writes nothing, where two names would fall together in one file. --anyway writes all the same: what
it then says are a definition and the module or the step that Rattle names after a function, which stand apart. --table prints the names, old and new.
"""
import collections
import os
import re
import sys

NAME = r"[^\s(){}\[\].,;:λ→×◌=|\"«»↦]+"
DECLARED = re.compile(rf"^(\s*)((?:abbrev |unfoldable |pub |abstract )*)({NAME})((?:\s[^:=]*?)?)\s:\s(.*)$")
KEYWORDS = {"use", "mod", "module", "data", "record", "let", "in", "elim", "open", "unfolding", "package", "ruleset"}
TOKEN = re.compile(rf"{NAME}")
NEW = {}
# a local name that a definition's new name would hide
LOCAL = {"in_table": "inside_table"}
# the library's name for what the older one called getD
HEIRS = {"getD": "get_or"}


def texts(root, endings):
    for folder, dirs, files in os.walk(os.path.join(root, "crates")):
        dirs[:] = sorted(d for d in dirs if d != "out")
        for f in sorted(files):
            if f.endswith(endings):
                yield os.path.join(folder, f)


def snake(name):
    for old, new in HEIRS.items():
        name = re.sub(rf"(?<![A-Za-z]){old}(?![a-z])", new, name)
    name = re.sub(r"(?<=[a-z0-9])([A-Z])", lambda m: "_" + m[1].lower(), name)
    return name.replace("-", "_")


def heirs(names, fields, others):
    """The new name of each name. A lemma that would have the name of a definition gets _lem."""
    camel = {n: snake(n) for n in names | fields if re.search(r"[a-z0-9][A-Z]", n) and "-" not in n}
    taken = set(camel.values())
    made = dict(camel)
    for n in others & taken:
        made[n] = n + "_lem"
    for n in (names | fields) - set(camel):
        made[n] = snake(n) + "_lem" * (snake(n) in taken | (others - taken))
    return made


def is_ours(name):
    """A name that is to be respelled: it begins with a small letter, and has a capital after a small letter, or a dash."""
    return re.match(r"[a-z]", name) and (re.search(r"[a-z0-9][A-Z]", name) or re.search(r"[\w']-[\w']", name)) and not re.search(r"-[A-Z]{2,}|-[A-Z]\b", name)


def declared(root):
    names, fields, others, made = set(), set(), set(), set()
    for path in texts(root, (".antt",)):
        is_answer = re.search(r"/proofs/.*/(Proof|Answers|Invariants)\.antt$", path)
        inside, depth = False, 0
        with open(path, encoding="utf-8") as f:
            for line in f:
                if line.lstrip().startswith("--"):
                    continue
                m = re.match(r"^(\s*)(?:pub )?(?:abbrev )?(record|data)\s", line)
                if m:
                    inside, depth = m[2] == "record", len(m[1])
                    continue
                m = DECLARED.match(line)
                if not m or m[3] in KEYWORDS:
                    continue
                if inside and len(m[1]) <= depth:
                    inside = False
                if re.fullmatch(r"[a-z][a-z0-9]*(_[a-z0-9]+)+", m[3]) and not m[5].startswith(("tie.", "goal.")):
                    others.add(m[3])
                    if inside:
                        made.add(m[3])
                if not is_ours(m[3]) or m[5].startswith(("tie.", "goal.")) or is_answer and re.match(r"(Inv|μ|returns|loop|if)-", m[3]):
                    continue
                (fields if inside else names).add(m[3])
    return names, fields, others, made


def aliases(text):
    """The names by which a file speaks of modules."""
    found = set(re.findall(r"(?m)^\s*(?:pub )?use [^\s{]+ as (\S+)\s*$", text))
    found |= {m.rsplit(".", 1)[-1] for m in re.findall(r"(?m)^\s*(?:pub )?use (\S+)\s*$", text)}
    return found


def respelled(part, names, fields, modules):
    """The part of a text that is antt, respelled."""
    out, at = [], 0
    for m in TOKEN.finditer(part):
        word = m[0]
        before = part[m.start() - 1] if m.start() else ""
        is_path = False
        if before == ".":
            head = re.search(rf"({NAME})\.$", part[: m.start()])
            is_path = bool(head) and head[1] in modules and not re.search(r"\buse [^\n]*$", part[: m.start()])
        if (before != "." or is_path) and (word in names or word in fields) or before == "." and word in fields:
            out.append(part[at : m.start()] + NEW[word])
            at = m.end()
    return "".join(out) + part[at:]


def in_antt(text, names, fields):
    modules = aliases(text)
    lines = []
    for line in text.splitlines(keepends=True):
        code, mark, comment = (line, "", "") if not line.lstrip().startswith("--") else ("", "", line)
        # words of comments that are names of ours are names there too
        lines.append(respelled(code, names, fields, modules) if code else in_comment(comment, names, fields))
    return "".join(lines)


def in_comment(line, names, fields):
    return re.sub(r"`([^`]+)`", lambda m: "`" + NEW.get(m[1], m[1]) + "`", line)


CLAUSE = re.compile(r"(?s)(\b(?:requires|ensures)\b[^{;]*?)\{")


def in_source(text, names, fields):
    out, at = [], 0
    spans = []
    for m in re.finditer(r"(?m)^\s*ghost use [^;]*;", text):
        spans.append((m.start(), m.end()))
    for m in re.finditer(r"\b(?:requires|ensures)(?: \w+)? \{|\bghost \w+ = \{|\bghost \w+: \{|\bghost invariant[^{]*\{", text):
        i, depth = m.end(), 1
        while depth:
            depth += {"{": 1, "}": -1}.get(text[i], 0)
            i += 1
        spans.append((m.end(), i - 1))
    for a, b in sorted(spans):
        if a < at:
            continue
        out.append(text[at:a] + respelled(text[a:b], names, fields, set()))
        at = b
    lines = ("".join(out) + text[at:]).splitlines(keepends=True)
    return "".join(in_comment(l, names, fields) if l.lstrip().startswith("//") else l for l in lines)


def together(path, old, new):
    """Says which names fall together in a file."""
    count = collections.defaultdict(set)
    for word in set(TOKEN.findall(old)):
        count[word].add(word)
    olds, news = TOKEN.findall(old), TOKEN.findall(new)
    seen = collections.defaultdict(set)
    for a, b in zip(olds, news):
        seen[b].add(a)
    return [f"{path}: {sorted(a)} are all {b}" for b, a in sorted(seen.items()) if len(a) > 1]


def main(words):
    table = "--table" in words
    folders = [w for w in words if not w.startswith("--")]
    root = folders[0] if folders else os.path.dirname(os.path.dirname(os.path.realpath(__file__)))
    names, fields, others, other_fields = declared(root)
    NEW.update(heirs(names, fields, others))
    fields |= set(NEW) & other_fields
    names |= set(NEW) - names - fields
    if table:
        for n in sorted(NEW):
            print(n, NEW[n])
        return 0
    made, bad = {}, []
    for path in texts(root, (".antt", ".rt")):
        with open(path, encoding="utf-8") as f:
            old = f.read()
        was = old
        for word, other in LOCAL.items():
            old = re.sub(rf"(?<![\w.'-]){word}(?![\w'-])", other, old) if path.endswith("/cause/proofs/Cases.antt") else old
        new = in_antt(old, names, fields) if path.endswith(".antt") else in_source(old, names, fields)
        if new != was:
            if path.endswith(".antt"):
                bad += together(path, old, new)
            else:
                params = set(re.findall(r"\b(?:mut )?(\w+): ", old)) & {NEW[w] for w in TOKEN.findall(old) if w in NEW}
                bad += [f"{path}: parameters or fields of a name that a clause now has too: {sorted(params)}"] if params else []
            made[path] = new
    print("\n".join(bad))
    if bad and "--anyway" not in words:
        return 1
    for path, text in made.items():
        with open(path, "w", encoding="utf-8") as f:
            f.write(text)
    print(f"{len(names)} names and {len(fields)} fields, {len(made)} files")
    return 0


sys.exit(main(sys.argv[1:]))
