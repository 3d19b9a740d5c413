#!/usr/bin/env python3
"""Brings the repository's own definitions and lemmas to today's spelling, once: run at the top after the port's script.

A word is in snake case: humps become `_`, and so does a dash, but for a dash after the whole name of a definition or a type, which joins
it to what a lemma says of it (`blank-not`, `Body-said`). A prime is an apostrophe. Names of src/ keep their spelling. A name that would
fall together with another one of the repository keeps its dash; one that has none gets `_of` (a definition) or `_lem` (a lemma) behind it.
"""
import glob
import re
import sys

IDENT = r"[^\s(){}\[\];,.⌜⌝@\"`]+"
DECL = re.compile(r"^(\s*)((?:(?:abbrev|unfoldable|pub)\s+)*)([^\s:(){}]+(?:\s+[^\s:(){}]+)*)\s+:\s")
HEAD = re.compile(r"^\s*(?:pub\s+)?(?:data|record)\s+([^\s:(){}]+)")


def declared():
    """Names that specs/ and the shared files of proofs/ declare: name -> is it a definition (of specs/, and no field)?"""
    names = {}
    for f in sorted(glob.glob("crates/*/specs/*.antt") + glob.glob("crates/*/proofs/*.antt")):
        spec = "/specs/" in f
        record = None
        for line in open(f, encoding="utf-8"):
            if not line.strip() or line.lstrip().startswith("--"):
                continue
            indent = len(line) - len(line.lstrip())
            if record is not None and indent <= record:
                record = None
            m = HEAD.match(line)
            if m:
                names[m.group(1)] = True
                record = indent if re.match(r"\s*(?:pub\s+)?record", line) else record
                continue
            m = DECL.match(line)
            if m:
                for n in m.group(3).split():
                    if n not in ("module", "where", "let", "in", "_"):
                        names[n] = names.get(n, False) or (spec and record is None)
    return names


def snake(word):
    if re.match(r"[A-Z]", word):
        return word
    word = re.sub(r"(?<=[a-z0-9])([A-Z])(?![A-Z]|$)", lambda m: "_" + m.group(1).lower(), word)
    word = re.sub(r"(?<=[a-z0-9])([A-Z]+)(?=[A-Z][a-z]|$)", lambda m: "_" + m.group(1).lower(), word)
    return word


def turned(name, definitions):
    if not re.match(r"^[A-Za-z][\w'-]*$", name, re.A) or not re.search(r"-|[a-z0-9][A-Z]", name):
        return name
    parts = name.split("-")
    head = next((k for k in range(len(parts) - 1, 0, -1) if "-".join(parts[:k]) in definitions), 0)
    left = "_".join(snake(p) for p in parts[:head])
    right = "_".join(snake(p) for p in parts[head:])
    return left + "-" + right if head else right


def every_token():
    """Names that a new spelling must not fall together with: those of antt, but for steps of a path and fields, and parameters and fields of src/."""
    found = set()
    for f in glob.glob("crates/**/*.antt", recursive=True):
        text = re.sub(r"--.*", "", open(f, encoding="utf-8").read())
        text = re.sub(r"(?m)^use .*?(\{|$)", r"\1", text)
        found.update(re.findall(r"(?<![\w.'-])" + IDENT, text))
    for f in glob.glob("crates/**/*.rt", recursive=True):
        found.update(re.findall(r"\b(\w+): ", open(f, encoding="utf-8").read()))
    return found


def table():
    names = declared()
    definitions = {n for n, spec in names.items() if spec}
    tokens = every_token()
    to, taken, stuck = {}, set(), []
    for n in sorted(names, key=lambda n: (not names[n], n)):
        want = turned(n, definitions)
        if want == n:
            continue
        if want in tokens or want in taken:
            dashed = "-".join(snake(p) for p in n.split("-"))
            if dashed == n:
                continue
            kept = dashed if "-" in n else want + ("_of" if names[n] else "_lem")
            if kept in tokens or kept in taken:
                stuck.append((n, want))
                continue
            want = kept
        to[n] = want
        taken.add(want)
    return to, stuck


CLAUSE = re.compile(r"(?:ghost use [^;]*;|\b(?:requires|ensures)\*?(?: \w+)? \{|\bghost \w+: \{)")


def antt(text, to):
    out = re.sub(IDENT, lambda m: to.get(m.group(0), m.group(0)), text)
    return out.replace("′", "'")


def source(text, to):
    """Clauses and ghost lines alone; in comments what stands between back quotes."""
    out, at = [], 0
    for m in CLAUSE.finditer(text):
        if m.start() < at:
            continue
        end = m.end()
        if text[end - 1] == "{":
            depth = 1
            while depth:
                depth += {"{": 1, "}": -1}.get(text[end], 0)
                end += 1
        out += [text[at : m.start()], antt(text[m.start() : end], to)]
        at = end
    out.append(text[at:])
    return re.sub(r"(?m)^(\s*//.*)$", lambda m: re.sub(r"`([^`]*)`", lambda b: antt(b.group(0), to), m.group(1)), "".join(out))


def main():
    to, stuck = table()
    if "--list" in sys.argv:
        for n in sorted(to):
            print(n, to[n])
    for n, want in stuck:
        print(f"respell: {n} would fall together with {want}", file=sys.stderr)
    if "--write" not in sys.argv:
        return 1 if stuck else 0
    for f in glob.glob("crates/**/*.antt", recursive=True) + glob.glob("crates/**/*.rt", recursive=True):
        text = open(f, encoding="utf-8").read()
        new = antt(text, to) if f.endswith(".antt") else source(text, to)
        if new != text:
            open(f, "w", encoding="utf-8").write(new)
    for f in glob.glob("crates/*/must-fail/**/*.edit", recursive=True):
        text = open(f, encoding="utf-8").read()
        spec = re.search(r"(?m)^file: (?:specs|proofs)/", text)
        lines = [antt(l, to) if spec and l[:4] in ("old:", "new:") else l for l in text.split("\n")]
        if "\n".join(lines) != text:
            open(f, "w", encoding="utf-8").write("\n".join(lines))
    return 0


if __name__ == "__main__":
    raise SystemExit(main())
