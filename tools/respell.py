#!/usr/bin/env python3
"""Spells this repository's own definitions and lemmas in snake case, as `tokenWords` and `within-high` to `token_words` and
`within_high`. Run once at the top, behind the toolchain's port.py; a second run would turn the laws' names again.

A name turns if a file of specs/ or a lemma file of proofs/ declares it (a signature, a constructor, a `let` or a bound
variable) and nothing outside the repository is imported by it. What Rattle makes for a function's proof keeps its spelling.
Types, modules, folders, functions of src/, exports, strings, inputs and outputs are left alone.
"""

import collections
import glob
import re
import sys

WORD = re.compile(r"(?<!\w)[A-Za-z_][A-Za-z0-9_'₀-₉-]*")
QUIET = re.compile(r'--[^\n]*|"(?:[^"\\\n]|\\.)*"')
USE = re.compile(r"\buse ([^\s;{]+)\.\{([^}]*)\}")
SIGN = re.compile(r"(?m)^ *(?:(?:pub|abbrev|unfoldable|private|mutual|data|record) +)*([^\s(){}.;,:]+(?: +[^\s(){}.;,:=]+)*)(?: *\{[^}\n]*\})* +:(?= |$)")
# a lemma that would meet a definition's new name gets `_law` behind its own; these stand in snake case already, each in a crate
LAWS = {
    "text": "by_tests",
    "checks": "later_pieces",
    "resolve": "left_by",
    "listing": "no_name",
    "grammar": "part_no",
    "demands": "record_of",
}
STANDING = {"kind_of", "names_of", "span_of", "word_at"}
# kept for what Rattle makes: a goal, a step of the code, a clause
MADE = re.compile(r"returns(-\d+)?|(invariant|decreases)-loop.*")


def snake(word):
    word = word.replace("-", "_")
    return re.sub(r"([a-z0-9])([A-Z])", r"\1_\2", word).lower()


def is_old(word):
    return bool(word[0].islower() and re.search(r"[a-z0-9][A-Z]|[A-Za-z0-9]-[A-Za-z0-9]", word))


def crate_of(path):
    return path.split("/")[1]


def own_path(path, crates):
    parts = path.split(".")
    return len(parts) > 2 and parts[0] == "Rattle" and parts[1] in crates and parts[2] in ("specs", "proofs")


def bare(text):
    return QUIET.sub(lambda m: '""' if m[0][0] == '"' else "", text)


def main():
    crates = {p.split("/")[1] for p in glob.glob("crates/*/src/*.rt")}
    specs = sorted(glob.glob("crates/*/specs/**/*.antt", recursive=True))
    lemmas = sorted(glob.glob("crates/*/proofs/*.antt"))
    functions = sorted(set(glob.glob("crates/*/proofs/**/*.antt", recursive=True)) - set(lemmas))
    kit, seen, declared = collections.defaultdict(set), collections.Counter(), set()
    for path in specs + lemmas + functions:
        text = bare(open(path, encoding="utf-8").read())
        for where, names in USE.findall(text):
            if not own_path(where, crates):
                for item in re.split(r", *|\s*\n\s*", names):
                    if item.strip():
                        kit[item.split()[0]].add(path)
        if path not in functions:
            seen.update(w for w in WORD.findall(text) if is_old(w))
            for names in SIGN.findall(text):
                declared.update(names.split())
    table = {w: snake(w) for w in seen if (w not in kit or w in declared) and not MADE.fullmatch(w)}
    taken = {n for w, n in table.items() if "-" not in w} | STANDING
    for word, new in table.items():
        if "-" in word and new in taken:
            table[word] = new + "_law"

    def outside(path):
        return {w for w in table if path in kit.get(w, ())}

    def turned(text, keep, dotted):
        def one(m):
            word = m[0]
            core = word.rstrip("'")
            new = table.get(word) or (table.get(core) and table[core] + word[len(core):])
            if not new or word in keep or core in keep:
                return word
            before = text[m.start() - 1] if m.start() else ""
            if before == "." and "-" in word and not dotted:
                return word
            return new

        out, at = [], 0
        for q in QUIET.finditer(text):
            out += [piece(text, at, q.start(), one), comment(q[0])]
            at = q.end()
        out.append(piece(text, at, len(text), one))
        return "".join(out)

    def piece(text, a, b, one):
        out, at = [], a
        for m in WORD.finditer(text, a, b):
            out += [text[at : m.start()], one(m)]
            at = m.end()
        return "".join(out) + text[at:b]

    def comment(text):
        if text[0] == '"':
            return text
        text = re.sub(r"`([^`]*)`", lambda m: WORD.sub(lambda w: table.get(w[0], w[0]), m[0]), text)
        return WORD.sub(lambda w: table.get(w[0], w[0]) if "-" not in w[0] else w[0], text)

    for path in specs + lemmas + functions:
        text = open(path, encoding="utf-8").read()
        keep = outside(path)
        if path in functions:
            # what a function's file itself declares is a label or a helper of its own
            keep |= {w for names in SIGN.findall(bare(text)) for w in names.split() if "-" in w}
        law = LAWS.get(crate_of(path))
        if law:
            text = re.sub(rf"(?<![\w'.-]){law}(?![\w'-])", law + "_law", text)
        new = turned(text, keep, path not in functions)
        # `a as a` is written `a`
        new = re.sub(r"(?<![^\s{,])([a-z][\w]*) as \1(?=[,}\s;])", r"\1", new)
        if new != open(path, encoding="utf-8").read():
            open(path, "w", encoding="utf-8").write(new)

    camel = {w: n for w, n in table.items() if "-" not in w}
    for path in glob.glob("crates/*/src/**/*.rt", recursive=True):
        text = re.sub(r"//[^\n]*|\"[^\"\n]*\"", "", open(path, encoding="utf-8").read())
        camel.update((w, snake(w)) for w in WORD.findall(text) if is_old(w) and "-" not in w)
    others = glob.glob("crates/*/src/**/*.rt", recursive=True) + glob.glob("crates/*/must-fail/**/*.edit", recursive=True)
    others += glob.glob("docs/*.md") + ["README.md"]
    for path in sorted(others):
        text = open(path, encoding="utf-8").read()
        words = camel if not path.endswith(".md") else table

        def prose(m):
            return WORD.sub(lambda w: table.get(w[0], w[0]), m[0])

        if path.endswith(".md"):
            new = re.sub(r"`[^`\n]*`", prose, text)
        else:
            new = WORD.sub(lambda w: camel.get(w[0], w[0]), text)
            if path.endswith(".rt"):
                new = re.sub(r"(?m)^ *(?:ghost|requires|ensures)\b.*$", lambda line: WORD.sub(lambda w: table.get(w[0], w[0]), line[0]), new)
            if path.endswith(".edit") and "file: specs" in text:
                new = WORD.sub(lambda w: table.get(w[0], w[0]), new)
            new = re.sub(r"(?<![^\s{,])([a-z][\w]*) as \1(?=[,}\s;])", r"\1", new)
        if new != text:
            open(path, "w", encoding="utf-8").write(new)

    met = collections.defaultdict(set)
    for word, new in table.items():
        met[new].add(word)
    for new, olds in sorted(met.items()):
        if len(olds) > 1:
            print("together:", new, "of", *sorted(olds))
    if "--list" in sys.argv:
        for word in sorted(table):
            print(word, table[word])


main()
