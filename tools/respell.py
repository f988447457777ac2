#!/usr/bin/env python3
"""Spells the repository's own definitions, constructors and fields as Rattle spells its own: words in snake case.

Run once, at the top of the repository, right after the toolchain's port.py. Lemmas keep their dashes, which join names;
types, facts and modules keep their capitals; names of Rust functions and what stands in strings are not touched. A name
that would fall together with another one of the same file is told, and the script then changes nothing.
"""
import collections
import glob
import re
import sys

ANTT = [f for part in ("specs", "proofs") for f in glob.glob(f"crates/*/{part}/**/*.antt", recursive=True)]
CODE = glob.glob("crates/*/src/**/*.rt", recursive=True)
EDITS = glob.glob("crates/*/must-fail/*.edit")
PAGES = ["README.md", *glob.glob("docs/*.md"), *glob.glob("wip/*.md")]

TOKEN = re.compile(r"[^\s(){}\[\].;,@\"«»`:!&|<>=+*/\\^%#$~]+")
STRING = re.compile(r'b?"(?:\\.|[^"\\])*"')
CAMEL = re.compile(r"^[a-z][^\s]*?[a-z0-9][A-Z]")
DECLARED = re.compile(r"^(\s*)(?:(?:pub|abbrev|unfoldable|ruleset)\s+)*([^\s:(){}.;,@\"]+(?: [^\s:(){}.;,@\"=]+)*)\s*:(?:\s|$)")
BLOCK = re.compile(r"^(\s*)(?:pub\s+)?(?:data|record)\b.*\bwhere\s*$")

# Lemmas that port.py gave the spelling that a definition has from here on: a dash joins their two names again.
LEMMAS = {
    "crates/reading/proofs/LawsPlaced.antt": {"items_at": "items-at"},
    "crates/reading/proofs/LawsInside.antt": {"go_on": "go-on"},
    "crates/decoder/proofs/LawsRowViews.antt": {"rows_in": "rows-in", "view_in": "view-in"},
    "crates/cache/proofs/LawsJudged.antt": {"is_free": "is-free"},
    "crates/format/proofs/LawsPool.antt": {"runs_of": "runs-of", "bodies_of": "bodies-of"},
    "crates/format/proofs/RowPlaced.antt": {"place_at": "place-at"},
    "crates/judge/proofs/LawsJudge.antt": {"lists_at": "lists-at"},
    "crates/container/proofs/LawsItem.antt": {"not_end": "not-end"},
    "crates/payloads/proofs/LawsDebug.antt": {"same_place": "same-place"},
}
# Names that would fall together with another one, and what they are called instead.
OTHER = {
    "whole-case": "a_whole_case",
    "payloadOf": "payload_from",
    "type-words": "type_rows_fit",
    "function-words": "function_rows_fit",
    "global-words": "global_rows_fit",
    "list-words": "list_rows_fit",
    "attribute-words": "attribute_rows_fit",
}
# Constructors of two data, which no file has both of.
APART = {"a_gather_scatter_view", "a_tensor_view", "a_partition_view", "a_strided_view"}
# Here the Rust function of the definition's name stands in paths and comments alone.
PATHS = {
    "crates/sheet/proofs/put_word/Proof.antt",
    "crates/cache/proofs/put_row/Proof.antt",
    "crates/images/proofs/container/first_byte/Proof.antt",
    "crates/images/proofs/container/alignment_of/Proof.antt",
    "crates/judge/proofs/steps/all_up_to/Proof.antt",
    "crates/payloads/proofs/pass/stage_of/Proof.antt",
}
# A fact in a name keeps its capital.
KEPT = re.compile(r"^entry_IsPlace$")


def snake(name):
    name = re.sub(r"(?:T?F|BF)[0-9]+(?:E[0-9]+M[0-9]+F?N?U?)?", lambda m: m.group(0).capitalize(), name)
    name = re.sub(r"(?<=[A-Z])([A-Z])(?=[a-z])", r"_\1", name)
    return re.sub(r"(?<=[a-z0-9])([A-Z])", r"_\1", name).lower().replace("·", "_")


def text_of(path):
    with open(path, encoding="utf-8") as file:
        return file.read()


def outside_strings(text, change):
    out, at = [], 0
    for found in STRING.finditer(text):
        out += [change(text[at : found.start()]), found.group(0)]
        at = found.end()
    return "".join([*out, change(text[at:])])


def tokens(text):
    found = set()
    outside_strings(text, lambda part: found.update(TOKEN.findall(part)) or part)
    return found


def labels(text):
    """Constructors of a data, fields of a record."""
    found, depth = set(), None
    for line in text.splitlines():
        block = BLOCK.match(line)
        if block:
            depth = len(block.group(1))
            continue
        if depth is None or not line.strip():
            continue
        if len(line) - len(line.lstrip()) <= depth:
            depth = None
            continue
        named = DECLARED.match(line)
        if named and len(named.group(1)) == depth + 2 and not line.strip().startswith("--"):
            found.update(named.group(2).split())
    return found


def main():
    texts = {f: text_of(f) for f in ANTT + CODE + EDITS}
    for path, lemmas in LEMMAS.items():
        texts[path] = TOKEN.sub(lambda m, names=lemmas: names.get(m.group(0), m.group(0)), texts[path])
    new = {}
    for text in texts.values():
        for name in tokens(text):
            if (CAMEL.match(name) or re.match(r"^since13·", name)) and not KEPT.match(name):
                new[name] = snake(name)
    for path in ANTT:
        for name in labels(texts[path]):
            if "-" in name and re.match(r"^[a-z]", name):
                new[name] = snake(name).replace("-", "_")
    new.update({old: name for old, name in OTHER.items() if old in new})
    meet = collections.defaultdict(set)
    for old, name in new.items():
        meet[name].add(old)
    wrong = [f"{name}: {sorted(olds)}" for name, olds in meet.items() if len(olds) > 1 and name not in APART]
    for path, text in texts.items():
        if path.endswith(".antt") and path not in PATHS:
            held = tokens(text)
            wrong += [f"{path}: {old} and {name}" for old, name in new.items() if old in held and name in held]
    if wrong:
        sys.exit("names that fall together:\n" + "\n".join(wrong))

    def turn(part):
        return TOKEN.sub(lambda m: new.get(m.group(0), m.group(0)), part)

    for path, text in texts.items():
        turned = outside_strings(text, turn)
        if turned != text_of(path):
            with open(path, "w", encoding="utf-8") as file:
                file.write(turned)
    for path in PAGES:
        text = text_of(path)
        turned = re.sub(r"`[^`\n]+`", lambda m: turn(m.group(0)), text)
        if turned != text:
            with open(path, "w", encoding="utf-8") as file:
                file.write(turned)
    for old, name in sorted(new.items()):
        print(f"{old} is {name}")


if __name__ == "__main__":
    main()
