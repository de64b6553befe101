#!/usr/bin/env python3
"""Brings the names of definitions, lemmas and record fields to today's spelling, once, after port.py.

A type, a fact and a module stay in upper camel case; every other name of specs/ and proofs/ becomes snake case, with an
underscore for a dash. Names of src/, text in quotes and names that a file brings in from elsewhere stay. Run it at the top of
the repository; it prints the names that fall together. With --map it only prints old and new names. The crate core gets the
name core_graph, since a library of the kit is called core."""
import glob
import os
import re
import sys

NAME = r"[^\s(){}\[\];,.\"«»|@]+"
SIGNATURE = re.compile(r"^(\s*)((?:abbrev |unfoldable |pub )*)((?:%s )+): " % NAME)
IMPORT = re.compile(r"^(?:ghost )?use ([^{;]+?)(?:\.\{([^}]*)\})?(?: as \S+)?;?$")
KEEP = set("_ λ let in as where then else elim record open module deriving".split())
# lemmas that would get the name of a function which stands in one file with them
LEMMAS = """
atom-part bit-and bit-or bit-xor columns-at core-records dependency-at every-from few-rows first-in first-number
from-core good-head good-rule good-shape has-type head-named in-atoms in-core in-turn invented-kind iri-numbers
is-term key-of kind-at literal-numbers multiplicity-number node-set of-pack on-pack only-if predicate-in prefix-of
put-atoms put-head read-all required-bit row-of second-number seen-node seen-part set-at set-number shape-good
target-number well-formed with-graph word-at
""".split()
# fields of which the same is so
FIELDS = {
    "node-keys": "node_keys_are", "triple-keys": "triple_keys_are", "node-records": "node_records_are",
    "triple-records": "triple_records_are", "rows-held": "holds_rows", "first-at": "first_is_at", "subject-at": "subject_is_at",
}
OTHERWISE = {**{n: n.replace("-", "_") + "_lem" for n in LEMMAS}, **FIELDS}
# lemmas to which port.py has given such a name
IN_CRATE = {"records": {"text_at": "text_at_lem"}, "names": {"count_at": "count_at_lem"}}


def antt_files():
    return sorted(f for f in glob.glob("crates/*/specs/**/*.antt", recursive=True)
                  + glob.glob("crates/*/proofs/**/*.antt", recursive=True))


def rt_files():
    return sorted(glob.glob("crates/*/src/**/*.rt", recursive=True))


def snake(word):
    word = re.sub(r"(?<=[a-z0-9?'])(?=[A-Z])", "_", word)
    return word.lower() if word[:1].islower() else word


def respelled(name):
    if name[:1].isupper() or not re.search(r"[a-z]", name):
        return name
    parts = [snake(p) for p in name.split("-")]
    return name if "" in parts else "_".join(parts)


def declared():
    """The names that specs/ and proofs/ declare."""
    names = set()
    for f in antt_files():
        if f.endswith("/Proof.antt"):
            continue
        for line in open(f, encoding="utf-8"):
            m = SIGNATURE.match(line)
            if not m:
                continue
            names.update(n for n in m.group(3).split() if n not in KEEP and not n.startswith(("--", "◌", "λ")))
    return names


def mapping():
    result = {}
    for n in declared():
        new = OTHERWISE.get(n, respelled(n))
        if new != n:
            result[n] = new
    return result


TOKEN = re.compile(r'"[^"\n]*"|--[^\n]*|//[^\n]*|' + NAME + r"|[\s(){}\[\];,.«»|@]")


def brought_in(text):
    """The names that a file brings in from elsewhere."""
    found = set()
    for line in text.split("\n"):
        m = IMPORT.match(line)
        if m and m.group(2) and not re.match(r"Rattle\.(%s)\." % CRATES, m.group(1)):
            for item in m.group(2).split(","):
                found.update(item.split(" as ")[0].split())
    return found


def comment(text, names):
    """In a comment only names that no English word is spelled as: those with a capital inside."""
    return re.sub(r"[\w?'₀-₉-]+", lambda m: names[m.group()] if m.group() in names and re.search(r"[a-z][A-Z]", m.group()) else m.group(), text)


def respell(text, names, proof=False):
    kept = brought_in(text)
    out, before = [], ""
    for m in TOKEN.finditer(text):
        t = m.group()
        if t.startswith('"'):
            new = t
        elif t.startswith("--") or t.startswith("//"):
            new = comment(t, names)
        elif t in names and t not in kept and not (proof and before == "."):
            new = names[t]
        else:
            new = t
        out.append(new)
        before = t
    return "".join(out)


def rename_core():
    if not os.path.isdir("crates/core"):
        return
    os.rename("crates/core", "crates/core_graph")
    for f in antt_files() + rt_files() + ["crates.txt"]:
        text = open(f, encoding="utf-8").read()
        new = text.replace("Rattle.core.", "Rattle.core_graph.")
        if f.endswith(".rt"):
            new = re.sub(r"\bcore::(?=core\(|heads|Outcome)", "core_graph::", new)
        if f == "crates.txt":
            new = re.sub(r"(?m)^([^#\n]*)$", lambda m: re.sub(r"\bcore\b", "core_graph", m.group(1)), new)
        if new != text:
            open(f, "w", encoding="utf-8").write(new)


def main():
    global CRATES
    if "--map" not in sys.argv:
        rename_core()
    CRATES = "|".join(sorted(d.split("/")[1] for d in glob.glob("crates/*/")))
    names = mapping()
    if "--map" in sys.argv:
        for n in sorted(names):
            print(n, names[n])
        return
    for f in antt_files() + rt_files():
        text = open(f, encoding="utf-8").read()
        here = {**names, **IN_CRATE.get(f.split("/")[1], {})}
        kept, spelled = brought_in(text), {}
        for t in sorted(set(TOKEN.findall(text))):
            new = here.get(t, t) if t not in kept else t
            if spelled.setdefault(new, t) != t:
                print("falls together:", f, spelled[new], t, new)
        new = respell(text, here, f.endswith("/Proof.antt"))
        if new != text:
            open(f, "w", encoding="utf-8").write(new)


main()
