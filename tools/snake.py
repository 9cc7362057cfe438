#!/usr/bin/env python3
"""Spells the repository's own definitions and lemmas in snake case, as today's Rattle does, in every .antt and .rt file below crates/.

A name that begins with a small letter and has a capital behind one gets underscores: numberOf is number_of, any-insertAt is
any-insert_at. Types, modules and functions of src/ have no such names. Where a lemma already has the new name of a definition, the
lemma gets _lem behind it, in the file that declares it and in those that import it from there. What the library calls get_or and
get_elem? is called so in the names of lemmas too.

Usage, once, after port.py, at the top of the repository: python3 tools/snake.py
"""
import re
from pathlib import Path

IDENT = r"[^\s(){};,.\[\]]+"
WORD = re.compile(r"[A-Za-z_][A-Za-z0-9_']*")
SIGNED = re.compile(r"^\s*(?:(?:pub|unfoldable|abbrev|opaque|private|pattern)\s+)*(" + IDENT + r")(?:\s+\{[^{}]*\})*\s+:(?:\s|$)", re.M)
USE = re.compile(r"^\s*(?:pub )?(?:ghost )?use ([^\s{;]+)\.\{([^}]*)\}", re.M)
LIBRARY = {"getD": "get_or", "getElem": "get_elem"}
# lemmas that have the new name of another definition, by name: the lemma is renamed where it is declared and where it is imported
LEMMAS = """all_asked by_count count_at due_in end_by far_from good_start has_width heard_all in_order kept_in long_kept long_of
no_frames node_at not_late place_at read_back same_truth spread_at start_plain sum_near two_bytes""".split()


def is_camel(word):
    return re.match(r"[a-z_]", word) and re.search(r"[a-z0-9'][A-Z]", word)


def snake(word):
    return LIBRARY.get(word) or re.sub(r"([a-z0-9'])([A-Z])", r"\1_\2", word).lower()


def module_of(path):
    """The path by which a file of specs/ or proofs/ is imported."""
    crate, part, *rest = path.parts[1:]
    return ".".join(["Rattle", crate, part, *rest[:-1], path.stem])


def main():
    files = sorted(p for p in Path("crates").rglob("*") if p.suffix in (".antt", ".rt") and "out" not in p.parts)
    texts = {p: p.read_text(encoding="utf-8") for p in files}
    declares = {p: set(SIGNED.findall(t)) for p, t in texts.items() if p.suffix == ".antt" and p.parts[2] in ("specs", "proofs")}
    at = {module_of(p): p for p in declares}
    for path, text in texts.items():
        lemmas = {w for w in LEMMAS if path.suffix == ".antt" and path.parts[2] == "proofs" and w in declares.get(path, ())}
        for module, names in USE.findall(text):
            home = at.get(module)
            if home and home.parts[2] == "proofs":
                lemmas |= {w for w in LEMMAS if w in declares[home] and w in [n.strip().split(" ")[0] for n in names.split(",")]}
        for word in lemmas:
            text = re.sub(rf"(?<![\w.'?-]){word}(?![\w'?-])", word + "_lem", text)
        text = WORD.sub(lambda m: snake(m[0]) if is_camel(m[0]) else m[0], text)
        if text != texts[path]:
            path.write_text(text, encoding="utf-8")


main()
