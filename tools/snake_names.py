#!/usr/bin/env python3
"""Brings the repository's own definitions and lemmas to the spelling of today's Rattle: words in snake case.

usage: tools/snake_names.py        at the top of the repository, once, right after the kit's port.py

runBy and run-by become run_by. A lemma that would have a definition's name gets _lem. Functions, types, strings and the
names that Rattle makes keep theirs. It prints what fell together and every place where a name was there before."""
import collections
import os
import re
import sys

WORD = re.compile(r"[A-Za-z_\u0370-\u03ff\u2080-\u209c][A-Za-z0-9_'?!\u0370-\u03ff\u2080-\u209c-]*")


def walks(path):
    """Whether a file is the proof of a function: its names are those of the function's goals."""
    return path.endswith("/Proof.antt") or "/Proof/" in path


def files(ends):
    for folder, below, names in os.walk("crates"):
        below[:] = sorted(d for d in below if d not in ("out", "must-fail"))
        for name in sorted(names):
            if name.endswith(ends):
                yield os.path.join(folder, name)


def read(path):
    with open(path, encoding="utf-8") as it:
        return it.read()


def declared(text):
    """The names that a file of antt declares, each with its kind: type, def, constructor or field."""
    kind = None
    for line in text.split("\n"):
        if not line.strip() or line.lstrip().startswith("--"):
            continue
        words = line.split()
        if not line[0].isspace():
            kind = None
            if words[0] in ("use", "mod") or words[:2] in (["pub", "mod"], ["pub", "use"]):
                continue
            own = [w for w in words if w not in ("pub", "abbrev", "unfoldable", "mutual")]
            if own and own[0] in ("data", "record"):
                kind = "constructor" if own[0] == "data" else "field"
                yield own[1], "type"
            elif len(own) > 1 and own[1] == ":":
                yield own[0], "def"
        else:
            # a field or a constructor, else a lemma in a module or behind where
            own = [w for w in words if w not in ("pub", "abbrev", "unfoldable")]
            if len(own) > 1 and own[1] == ":" and WORD.fullmatch(own[0]):
                yield own[0], kind or "inner"


def snake(name):
    if name[0].isupper():
        return name
    name = re.sub(r"(?<=[a-z0-9])([A-Z])", r"_\1", name)
    return name.lower().replace("-", "_") if name.isascii() else name.replace("-", "_")


def main():
    where = collections.defaultdict(list)
    for path in files(".antt"):
        if not walks(path):
            for name, kind in declared(read(path)):
                where[name].append((path, kind))
    new = {}
    taken = collections.defaultdict(list)
    for name in where:
        taken[snake(name)].append(name)
    twice = {}
    # lemmas about a word of the library, in whose file the word itself is cited
    for name in ("bit-and", "bit-or", "bit-xor", "ones-in"):
        taken[snake(name)].insert(0, snake(name))
    for to, names in taken.items():
        # the definition of specs/ keeps the name, whatever its old spelling; a lemma gives way
        names.sort(key=lambda n: (n in where, not any("/specs/" in p for p, _ in where.get(n, [])), "-" in n, n))
        for rank, name in enumerate(names):
            goes = to if rank == 0 else f"{to}_lem"
            if goes != name:
                new[name] = goes
            if rank and names[0] in where:
                print(f"fell together: {name} -> {goes}, beside {names[0]}")
                twice[name] = goes
            elif rank:
                print(f"the library's word: {name} -> {goes}")
    fields = {n for n, at in where.items() if any(k in ("field", "inner") for _, k in at)}

    def lent(text):
        """The names that a file takes from a library, where they stay as they are."""
        lines = re.findall(r"(?m)^(?:pub )?(?:ghost )?use (?!Rattle\.)[\w.]+\.\{([^}]*)\}", text)
        return {name.split(" as ")[0].strip() for line in lines for name in line.split(",")}

    def turn(text, own, comment, code):
        """Turns a text. own: names that this file declares for a function's goals; comment: the mark of a comment."""
        out = []
        for line in text.split("\n"):
            at = line.find(comment) if comment else -1
            head, tail = (line, "") if at < 0 else (line[:at], line[at:])
            if code and '"' in head:
                out.append(line)
                continue
            done, end = [], 0
            for word in WORD.finditer(head):
                name = word.group()
                done.append(head[end : word.start()])
                end = word.end()
                before = head[: word.start()]
                goes = new.get(name)
                if goes and name in own:
                    goes = None
                if goes and before.endswith("."):
                    path = re.search(r"[\w.\u00b7+'-]*\.$", before).group()
                    if not path.startswith("Rattle.") and name not in fields:
                        goes = None
                    if name in twice and path.startswith("Rattle."):
                        goes = None
                # code of Rust: a name with no capital and no dash is a function's, so it stays
                if goes and code and not ("-" in name or re.search("[A-Z]", name)):
                    goes = None
                done.append(goes or name)
            head = "".join(done) + head[end:]
            tail = re.sub(r"`([^`\s]+)`", lambda m: "`" + new.get(m[1], m[1]) + "`", tail)
            tail = WORD.sub(lambda m: new.get(m[0], m[0]) if re.search("[a-z][A-Z]", m[0]) else m[0], tail)
            out.append(head + tail)
        return "\n".join(out)

    # a lemma of a where block that would have the name of a definition that its file cites
    local = {("crates/machine_record/proofs/ReadBack.antt", "entry_in"): "entry_in_lem"}
    places = 0
    for path in files((".antt", ".rt")):
        text = read(path)
        for (file, name), goes in local.items():
            if file == path:
                text = re.sub(rf"\b{name}\b", goes, text)
        code = path.endswith(".rt")
        own = {n for n, k in declared(text) if k in ("def", "inner")} if walks(path) else set()
        # a lemma that gave way is meant only where its file, or an import, has it: elsewhere the word is another's
        gone = {n for n in twice if "-" not in n and not re.search("[a-z][A-Z]", n) and not meant(n, text, path, where)}
        kept = turn(text, own | gone | lent(text), "//" if code else "--", code)
        if kept != text:
            had = {m.group() for m in WORD.finditer(strip(text, code))}
            for name in sorted({m.group() for m in WORD.finditer(strip(text, code))} & set(new)):
                if new[name] in had and new[name] not in where:
                    print(f"there before: {path}: {name} -> {new[name]}")
            with open(path, "w", encoding="utf-8") as it:
                it.write(kept)
            places += 1
    print(f"{len(new)} names, {places} files")
    with open("tools/snake_names.txt", "w", encoding="utf-8") as it:
        for name in sorted(new):
            it.write(f"{name} {new[name]}\n")


def meant(name, text, path, where):
    for file, _ in where[name]:
        module = re.sub(r"^crates/", "Rattle.", file[: -len(".antt")]).replace("/", ".")
        if file == path:
            return True
        for line in text.split("\n"):
            if line.lstrip().removeprefix("ghost ").startswith("use " + module + "."):
                if re.search(r"[{ ,]" + re.escape(name) + r"[,} ]", line):
                    return True
    return False


def strip(text, code):
    return re.sub("//.*" if code else "--.*", "", text)


if __name__ == "__main__":
    sys.exit(main())
