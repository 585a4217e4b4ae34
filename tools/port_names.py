#!/usr/bin/env python3
"""Spells what this repository's specs/ and proofs/ declare as today's Rattle does: words in snake case, types and
modules in upper camel case, a dash only beside a type's name.

usage: tools/port_names.py [--names] [FOLDER]

Run it once, at the top, behind the kit's port.py. It reads the names that are declared in crates/*/specs and
crates/*/proofs, and writes them anew in the crates' .antt and .rt files and in their must-fail edits. Names of the
libraries, of what Rattle generates and of the Rattle source stay. --names prints old and new, and writes nothing.
"""
import collections
import glob
import os
import re
import sys

WORD = r"[^\s(){}\[\];,.\"«»]+"
TOKEN = re.compile(WORD)
HEAD = re.compile(
    r"(?m)^( *)(?:(?:pub|abbrev|unfoldable|data|record|opaque)\s+)*(%s)"
    r"((?: \{[^{}\n]*\}| \([^()\n]*(?:\([^()]*\)[^()\n]*)*\))*) :(?= |$)" % WORD)
# Declared in upper case, as their source has them, though they are no types: functions and constructors.
VALUES = set("""ChecksumChecksOut ContiguousJournalInterval InCyclicRange JournalBackInterval JournalBlockOfByteSeq
JournalEndAddr JournalFrontInterval JournalIntervalOfLocation JournalPoint JournalRangeLocation JournalRangeOfByteSeq
JournalStartAddr NextStartPoint SumJournalEntries ValidJournalInterval ValidJournalLocation WeightJournalEntries
WeightJournalEntry JournalInsert JournalClone""".split())
# What Rattle generates for a function's proof, in a Proof.antt: such a name stays behind a dot or `tie.`
MADE = re.compile(r"(^|/)proofs/(.*/)?Proof\.antt$")


def small(part):
    """camelCase as snake_case; a part that begins with a capital is a type's name and stays."""
    if part[:1].isupper() and part not in VALUES:
        return part
    words = re.sub(r"(?<=[a-z0-9])([A-Z])", r"_\1", part)
    return words.lower() if words.isascii() else words[:1].lower() + words[1:] if part in VALUES else words


def spelled(name):
    if not re.search(r"[A-Za-z]", name):
        return name
    parts = re.split("(-)", name)
    out = small(parts[0])
    for dash, part in zip(parts[1::2], parts[2::2]):
        new = small(part)
        before = out.rsplit("-", 1)[-1].rsplit("_", 1)[-1]
        typed = new[:1].isupper() or before[:1].isupper()
        symbol = not re.search(r"[A-Za-z0-9]", new) or not re.search(r"[A-Za-z0-9]", before)
        out += ("-" if typed or symbol else "_") + new
    return out


def files(root, *ends):
    for path in sorted(glob.glob(os.path.join(root, "crates/*/*/**/*"), recursive=True)):
        if path.endswith(ends) and "/out/" not in path:
            yield path


def read(path):
    with open(path, encoding="utf-8") as f:
        return f.read()


def bare(text):
    return re.sub(r"--(?= |$).*", "", text)


def declared(root):
    found = collections.Counter()
    for path in files(root, ".antt"):
        if "/specs/" not in path and "/proofs/" not in path:
            continue
        text = bare(read(path))
        for head in HEAD.finditer(text):
            if MADE.search(path) and not head[2].endswith("-spec"):
                continue
            found[head[2]] += 1
    return found


def spellings(found):
    """Old names and new. Where some fall together, the definition has the name and the lemmas about it end in _lem."""
    names = {old: spelled(old) for old in found}
    by_new = collections.defaultdict(list)
    for old, new in names.items():
        by_new[new].append(old)
    for new, olds in by_new.items():
        for old in olds:
            if len(olds) > 1 and not re.search("[a-z][A-Z]", old):
                names[old] = new + "_lem"
    return {old: new for old, new in names.items() if old != new}


def imported(text):
    """The names that a file has from a library."""
    found = set()
    for use in re.finditer(r"(?m)^(?:ghost )?use ([^\s{;]+?)\.?\{([^}]*)\}", text):
        if not re.match(r"Rattle\.(?!std|core|bytes|io|libc|check)", use[1]):
            found |= {it.split()[0] for it in use[2].split(",") if it.strip()}
            found |= {it.split()[-1] for it in use[2].split(",") if it.strip()}
    return found


def turn(path, text, names):
    own = {old: new for old, new in names.items()}
    for it in imported(text):
        own.pop(it, None)
    made = MADE.search(path)
    uses = "".join(re.findall(r"(?m)^use Rattle\.[^\n]*", text)) if made else ""
    known = set(TOKEN.findall(uses))

    def write(token):
        word = token[0]
        new = own.get(word)
        if new is None:
            return word
        if made and not word.endswith("-spec"):
            before = text[max(0, token.start() - 1):token.start()]
            if before == "." and re.search(r"tie\.$", text[:token.start()]):
                return word
            if before != "." and word not in known and "-" in word:
                return word
        return new

    text = TOKEN.sub(write, text)
    # A label of a clause is no word that the clauses cite.
    return re.sub(r"\b(requires|ensures) (\w+)_after \{", r"\1 \2_new {", text) if path.endswith(".rt") else text


def main():
    show = "--names" in sys.argv
    rest = [it for it in sys.argv[1:] if it != "--names"]
    root = rest[0] if rest else "."
    names = spellings(declared(root))
    if show:
        for old, new in sorted(names.items()):
            print(old, new)
        return
    for path in files(root, ".antt", ".rt", ".edit"):
        text = read(path)
        new = turn(path, text, names)
        if new != text:
            with open(path, "w", encoding="utf-8") as f:
                f.write(new)


main()
