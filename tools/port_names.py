#!/usr/bin/env python3
"""Brings the repository's own names to the spelling of today's Rattle; run once, behind the kit's port.py.

The crate `sha1`, whose name a library of the kit has, becomes `sha1_digest`. The names that specs/ and proofs/ declare get snake case: `changeOf` and
`add-four` become `change_of` and `add_four`. Types and modules keep their capitals; names of src/, strings, inputs and outputs stay, and so do names that
Rattle makes. Where two names would meet, the lemma gets `_lem`.

usage: tools/port_names.py [--list]        at the top of the repository, over crates/, crates.txt and the pages

--list writes nothing and prints each name with its new spelling.
"""
import collections
import os
import re
import sys

WORD = re.compile(r'[^\s(){}\[\].;,@"`«»]+')
DECLARED = re.compile(r"\s*(?:(?:abbrev|unfoldable|pub) )*([^\s:(){}]+)(?: \{[^{}]*\})* :(?= |$)")
LOCAL = re.compile(r"(?:\blet|[({]|λ) ?\(?([a-z][\w'-]*)(?= )")
PROOF = re.compile(r"/proofs/.*/(Proof|Answers|Invariants)\.antt$")
CLAUSE = re.compile(r"^\s*(requires|ensures|ghost)\b")
# crates that have the name of a library of the kit
CRATES = {"sha1": "sha1_digest"}
# lemmas that would have the name of a definition
LEMMAS = """answer-rest change-line choose-from early-number example-printed in-moves line-count list-rest owner-told owners-left places-lent
pool-left remove-line report-from report-told row-report same_turn share-told table-printed table-rows three-equal three-words turns-here
unfinished-printed version-one""".split()
# the same in one file alone
IN_FILE = {"crates/demand3/proofs/Tables.antt": ["owner_at", "owner_of"], "crates/demand3_conversions/proofs/Calls.antt": ["left_by"]}
# a dash joins a type or a symbol of the standard to a name
KEPT = re.compile(r"[A-Z]+[a-z]*-|\+")


def files(kinds):
    for top, folders, names in os.walk("crates"):
        folders[:] = sorted(it for it in folders if it != "out")
        for name in sorted(names):
            if name.endswith(kinds):
                yield os.path.join(top, name)


def snake(name):
    name = re.sub(r"(?<=[a-z0-9])([A-Z])", lambda it: "_" + it[1].lower(), name)
    return name.replace("-", "_").replace("\u2032", "'")


def declared():
    """Returns each name that turns, with the files that declare it, and every name that is declared."""
    found, every = collections.defaultdict(set), collections.defaultdict(set)
    for path in files(".antt"):
        for line in open(path, encoding="utf-8"):
            it = DECLARED.match(line)
            if not it:
                continue
            name, rest = it[1], line[it.end() :]
            every[name].add(path)
            # the goals of a function have the names that Rattle makes
            if PROOF.search(path) and re.match(r" *(tie|goal)\.", rest):
                continue
            if snake(name) != name and not KEPT.match(name) and (name[0].islower() or not name[0].isalpha()):
                found[name].add(path)
    return found, every


OWN = re.compile(r"Rattle\.(?!std\.|core\.|io\.|libc\.|os\.)")


def imported(text):
    """Returns the names that a text imports from a library of the kit."""
    found = set()
    for it in re.finditer(r"(?m)^(?:pub |ghost )?use ([^\s;{]+)\.\{([^}]*)\}", text):
        if not OWN.match(it[1]):
            found.update(word.split(" as ")[-1].strip() for word in it[2].split(","))
    return found


def turned(text, table, comment):
    """Turns the code of an antt text, but for what it imports from a library; in a comment a bare word turns where the file's code has it."""
    table = {old: new for old, new in table.items() if old not in imported(text)}
    out, words = [], set()
    lines = text.split("\n")
    for line in lines:
        words.update(WORD.findall(line.split(comment, 1)[0]))
    for line in lines:
        code, mark, said = line.partition(comment)
        code = WORD.sub(lambda it: table.get(it[0], it[0]), code)
        bare = lambda it: table[it[0]] if it[0] in table and (it[0] in words or re.search("[A-Z]", it[0])) else it[0]
        out.append(code + mark + WORD.sub(bare, said))
    return "\n".join(out)


def turned_rt(text, table):
    """Turns clauses and ghost items alone, and camel-case names of comments."""
    out, depth = [], 0
    for line in text.split("\n"):
        is_clause = depth or CLAUSE.match(line)
        code, mark, said = line.partition("//")
        if is_clause:
            out.append(WORD.sub(lambda it: table.get(it[0], it[0]), code) + mark + said)
            depth += code.count("{") - code.count("}")
        else:
            camel = lambda it: table[it[0]] if it[0] in table and re.search("[A-Z]", it[0]) else it[0]
            out.append(code + mark + WORD.sub(camel, said))
    return "\n".join(out)


def rename_crates():
    for old, new in CRATES.items():
        os.rename(f"crates/{old}", f"crates/{new}")
        for path in ["crates.txt", *files((".antt", ".rt"))]:
            text = open(path, encoding="utf-8").read()
            if path == "crates.txt":
                made = re.sub(rf"(?m)(?<![\w#]){old}(?!\w)(?=[^#\n]*$)", new, text)
                made = "\n".join(b if not a.startswith("#") else a for a, b in zip(text.split("\n"), made.split("\n")))
            else:
                made = re.sub(rf"(?<!\w){old}::", f"{new}::", text)
                made = re.sub(rf"\buse {old};", f"use {new};", made)
                made = re.sub(rf"\bRattle\.{old}\.", f"Rattle.{new}.", made)
                made = re.sub(rf"#{old}·", f"#{new}·", made)
            if made != text:
                open(path, "w", encoding="utf-8").write(made)


def main(argv):
    if "--list" not in argv:
        rename_crates()
    found, every = declared()
    table = {name: snake(name) for name in found} | {name: snake(name) + "_lem" for name in LEMMAS}
    meet = collections.defaultdict(set)
    for name in [*table, *every]:
        meet[table.get(name, name)].add(name)
    for new, olds in sorted(meet.items()):
        if len(olds) > 1:
            print("meet:", new, {it: sorted(every[it])[:3] for it in olds})
    if "--list" in argv:
        for name in sorted(table):
            print(name, table[name])
        return
    for path in files((".antt", ".rt")):
        text = open(path, encoding="utf-8").read()
        of_file = table | {name: name + "_lem" for name in IN_FILE.get(path, [])}
        new = turned(text, of_file, "--") if path.endswith(".antt") else turned_rt(text, table)
        if new != text:
            open(path, "w", encoding="utf-8").write(new)
    for top in (".", "docs"):
        for name in sorted(os.listdir(top)):
            if name.endswith(".md"):
                path = os.path.join(top, name)
                text = open(path, encoding="utf-8").read()
                camel = lambda it: table[it[0]] if it[0] in table and re.search("[A-Z-]", it[0]) else it[0]
                new = re.sub(r"`[^`\n]+`", lambda it: WORD.sub(camel, it[0]), text)
                if new != text:
                    open(path, "w", encoding="utf-8").write(new)


if __name__ == "__main__":
    main(sys.argv[1:])
