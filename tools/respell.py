#!/usr/bin/env python3
"""Brings the repository's own definitions and lemmas to snake case, and its facts and types to camel case.

usage: python3 tools/respell.py [--list]     at the top of a checkout that port.py has turned

Names of the toolchain's libraries keep their spelling, as do functions of src/ and what Rattle makes for proofs. `--list` prints the renamings and
what falls together, and writes nothing.
"""

import collections
import os
import re
import sys

WORD = re.compile(r"[A-Za-zα-ωΑ-ΩℕℤÀ-ÿ_][\w'′₀-₉≡≢≤<→∷]*(?:-[\w'′₀-₉≡≢≤<→∷]+)*")
LIBRARIES = re.compile(r"^(native|mathlib|Prim|lib|borrow|mir|denote|contract|prog|seplogic|types)$")
USE = re.compile(r"(?m)^\s*(?:ghost )?(?:pub )?(?:unfoldable )?(?:pub )?use ([^\s{;]+?)(?:\.\{([^}]*)\})?(?: as (\w+))?;?\s*$")
# Proofs by hand of traits, where names that Rattle makes stand beside the repository's own.
MADE = re.compile(r"^(calls|Need|invariant|decreases|returns|Goes|WpFn|over|off|met|Lts|same_)[-_]|-(spec|thm|requires|requires-\d+|laws|met)$|-\d+$")

# Where a definition and a lemma would fall together, or two definitions.
BY_HAND = {it: it.replace("-", "_") + "_lem" for it in "answer-line border-verdict delete-verdict write-verdict empty-node in-measure on-records own-freed read-tests reads-from tag-place tags-at write-left put-at rows-of tree-of".split()}
BY_HAND.update({"on-records": "on_store", "Host-ends": "HostCallEnds", "inPlace": "held_in_place", "toFree": "held_to_free", "mapAt": "map_indexed"})


def below(folder, ends):
    for at, folders, names in os.walk(folder):
        folders[:] = sorted(it for it in folders if it not in ("out", "data"))
        for name in sorted(names):
            if name.endswith(ends):
                yield os.path.join(at, name)


def read(path):
    with open(path, encoding="utf-8") as it:
        return it.read()


def of_libraries(paths, own):
    found = set()
    for path in paths:
        for use in USE.finditer(read(path)):
            parts = use[1].split(".")
            if LIBRARIES.match(parts[0]) or (parts[0] == "Rattle" and len(parts) > 1 and parts[1] not in own):
                found.update(it.strip().split(" as ")[0].strip() for it in (use[2] or "").split(","))
    return found


def snake(word):
    if word in BY_HAND:
        return BY_HAND[word]
    word = word.replace("′", "'")
    if word[0].isupper():
        parts = word.split("-")
        return parts[0] + "".join(it[:1].upper() + it[1:] for it in parts[1:])
    word = word.replace("-", "_")
    if re.match(r"[a-z]", word) and "_" not in word:
        word = re.sub(r"(?<=[a-z0-9])([A-Z])", lambda it: "_" + it[1].lower(), word)
    return word


def is_turned(word, kit):
    if word in kit:
        return False
    return "-" in word or "′" in word or bool(re.match(r"[a-z][a-z0-9]*[A-Z]", word) and "_" not in word)


def by_hand(path):
    """A proof in the form that walks the code: its names are Rattle's."""
    return path.endswith(("Proof.antt", "Answers.antt", "Invariants.antt"))


def names(paths, kit):
    found = {}
    for path in paths:
        if by_hand(path) or not path.endswith(".antt"):
            continue
        of_traits = "/proofs/" in path
        for line in read(path).split("\n"):
            if line.lstrip().startswith("--"):
                continue
            for it in WORD.finditer(line):
                word = it[0]
                if not is_turned(word, kit) or word == "x00PPPP":
                    continue
                # A word of a library that is named by its whole path.
                before = re.search(r"([\w.'-]+)\.$", line[: it.start()])
                if before and LIBRARIES.match(before[1].split(".")[0]):
                    continue
                if of_traits and MADE.search(word):
                    continue
                found[word] = snake(word)
    return found


def turned(text, map_of, path):
    out = []
    for line in text.split("\n"):
        cut = re.match(r"\s*(--|//)", line)

        def one(it):
            word = it[0]
            if cut and "-" in word:
                return word
            before = re.search(r"([\w.'-]+)\.$", line[: it.start()])
            if before and LIBRARIES.match(before[1].split(".")[0]):
                return word
            return map_of.get(word, word)

        if path.endswith(".edit") and line.startswith("file:"):
            out.append(line)
        else:
            out.append(WORD.sub(one, line))
    return "\n".join(out)


def main(argv):
    own = set(os.listdir("crates"))
    paths = list(below("crates", (".antt", ".rt")))
    kit = of_libraries(paths, own)
    map_of = names(paths, kit)
    if argv:
        seen = collections.Counter()
        for path in paths:
            if not by_hand(path):
                seen.update(WORD.findall(read(path)))
        for old, new in sorted(map_of.items()):
            print(old, new, "FALLS TOGETHER" if new in seen or sum(v == new for v in map_of.values()) > 1 else "")
        return
    for path in paths + list(below("crates", (".edit",))):
        text = read(path)
        new = turned(text, map_of, path)
        if new != text:
            with open(path, "w", encoding="utf-8") as it:
                it.write(new)


if __name__ == "__main__":
    main(sys.argv[1:])
