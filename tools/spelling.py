#!/usr/bin/env python3
"""Brings this repository's own names to the spelling of today's Rattle, after its port.py has run; run it once, at the top.

Definitions, constructors and fields of specs/ and proofs/ get snake case (`ruleEnd` is `rule_end`, `refuse-if` is `refuse_if`). A lemma
keeps the dashes that join its words. Types and modules keep their camel case, and functions, parameters and labels of src/ their
spelling. The names in README, docs/ and the edits of must-fail/ follow. It stops, and writes nothing, where two names fall together.
"""
import glob, os, re, sys

BREAK = r"\s(){}\[\];.,:«»\"`|↦"
TOKEN = re.compile(r"(\.?)([^%s]+)" % BREAK)
DECLARED = re.compile(r"^(\s*)((?:abbrev |unfoldable |pub )*)(data |record )?([^%s]+)(?: [^:=]*)? :(?: |$)" % BREAK)
CAMEL = re.compile(r"[a-z][a-z0-9]*[A-Z]")
# Names that would fall together with another, and one that names a word that port.py renamed.
CHOSEN = {"getD-mem": "get_or-mem", "known-of": "entry_known", "rule_end": "rule_end_lem"}
LOCAL = {"crates/tree/proofs/Trees.antt": {"place_at": "place_at_lem"}}


def snake(word):
    return re.sub(r"(?<=[a-z0-9])([A-Z])", lambda m: "_" + m[1].lower(), word)


def read(path):
    with open(path, encoding="utf-8") as f:
        return f.read()


def declared(files):
    """The names of definitions (words, constructors, fields), those of lemmas, and which are fields or constructors."""
    words, lemmas, fields = set(), set(), set()
    for path in files:
        deep = None
        for line in read(path).split("\n"):
            m = DECLARED.match(line)
            if not line.strip() or line.lstrip().startswith("--"):
                continue
            indent = len(line) - len(line.lstrip())
            if deep is not None and indent <= deep:
                deep = None
            if m and deep is not None and indent == deep + 2:
                fields.add(m[4])
                words.add(m[4])
            elif m and (m[3] or "abbrev" in m[2] or "unfoldable" in m[2] or "/specs/" in path):
                words.add(m[4])
            elif m and (indent == 0 or "pub" in m[2]):
                lemmas.add(m[4])
            if m and m[3]:
                deep = indent
    return words, lemmas, fields


def new_names(words, lemmas):
    names = dict(CHOSEN)
    for name in sorted(words | lemmas):
        new = "-".join(snake(p) if CAMEL.match(p.lstrip("→")) else p for p in name.split("-"))
        if name in words and name not in lemmas and not name[:1].isupper():
            new = new.replace("-", "_")
        if new != name:
            names.setdefault(name, new)
    return names


def main():
    files = sorted(p for d in ("specs", "proofs") for p in glob.glob("crates/*/%s/**/*.antt" % d, recursive=True))
    own = [p for p in files if not p.endswith("/Proof.antt")]
    words, lemmas, fields = declared(own)
    names = new_names(words, lemmas)
    there = words | lemmas
    clash = sorted((a, b) for a, b in names.items() if b in there and b not in names and b not in ("none_of", "place_at"))
    twice = sorted(b for b in set(names.values()) if sum(1 for v in names.values() if v == b) > 1)
    if clash or twice:
        print("these would fall together:", clash, twice)
        if "--see" not in sys.argv:
            sys.exit(1)
    if "--see" in sys.argv:
        for a in sorted(names):
            print(a, names[a])
        return

    def turned(text, path):
        here = dict(names, **LOCAL.get(path, {}))
        if path.endswith(".rt"):
            here.pop("rule_end")

        def one(m):
            dot, name = m[1], m[2]
            return m[0] if name not in here or (dot and name not in fields and not CAMEL.match(name)) else dot + here[name]
        return TOKEN.sub(one, text)

    sources = sorted(glob.glob("crates/*/src/**/*.rt", recursive=True))
    for path in files + sources:
        old = read(path)
        new = turned(old, path)
        if path.endswith("/Proof.antt"):
            function = os.path.basename(os.path.dirname(path))
            new = re.sub(r"\b%s-spec\b" % re.escape(function.replace("_", "-")), function + "_spec", new)
        if new != old:
            with open(path, "w", encoding="utf-8") as f:
                f.write(new)
    words2 = declared(own)
    now = words2[0] | words2[1]
    names.pop("rule_end")
    for path in ["README.md"] + sorted(glob.glob("docs/*.md")) + sorted(glob.glob("crates/*/must-fail/*.edit")):
        old = read(path)
        new = TOKEN.sub(lambda m: m[1] + snake(m[2]) if CAMEL.match(m[2]) and snake(m[2]) in now else m[1] + names.get(m[2], m[2]), old)
        if new != old:
            with open(path, "w", encoding="utf-8") as f:
                f.write(new)
    print("spelling: %d names" % len(names))


main()
