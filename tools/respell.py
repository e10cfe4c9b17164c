#!/usr/bin/env python3
"""Respells this repository's own definitions and lemmas: words in snake case, facts that are types in camel case.

    tools/respell.py           at the top of the repository, once, after the kit's own respelling
    tools/respell.py --list    prints old and new names, and new names that are in use already

Names are taken from the definitions of crates/*/specs/*.antt and crates/*/proofs/*.antt. They are replaced, as whole
words, in those files, in the proof files of functions, and in contracts and imports of src/. Comments stay as they are,
and so do the names of Rust items and the strings of src/, none of which has such a name. Names that an import gives by
`as` are not among them.
"""
import glob
import re
import sys

HEAD = re.compile(r"^ *(?:(?:abbrev|opaque|unfoldable|pub|data|record) +)*([^\s:(){},.=|]+) *:(?:\s|$)")
WORD = r"[\w'\-]"
# names that would fall together with a field of a record
APART = {"force-1": "force_1_alone", "force-3": "force_3_alone"}


def camel(name):
    return "".join(part[:1].upper() + part[1:] for part in name.split("-"))


def respelled(name):
    if name in APART:
        return APART[name]
    return camel(name) if name[0].isupper() else name.replace("-", "_").lower()


def shared():
    return sorted(glob.glob("crates/*/specs/*.antt") + glob.glob("crates/*/proofs/*.antt"))


def defined():
    """Every name that a definition or lemma has, and every constructor and field."""
    names = set()
    for path in shared():
        with open(path, encoding="utf-8") as file:
            for line in file:
                head = HEAD.match(line)
                if head:
                    names.add(head[1])
    return names


def code_of(line, mark):
    """The line in front of its comment, and the comment."""
    if mark == "--":
        at = re.search(r"(?:^|\s)--(?:\s|$)", line)
    else:
        at = re.search(r"(?:^|\s)//", line)
    return (line[: at.start()], line[at.start() :]) if at else (line, "")


def files():
    antt = glob.glob("crates/*/specs/**/*.antt", recursive=True) + glob.glob("crates/*/proofs/**/*.antt", recursive=True)
    return sorted(set(antt)), sorted(glob.glob("crates/*/src/**/*.rt", recursive=True))


def main(argv):
    names = defined()
    old = {n: respelled(n) for n in names if "-" in n and not n.startswith("◌")}
    if "--list" in argv:
        taken = {}
        for n, new in old.items():
            taken.setdefault(new, []).append(n)
        antt, rt = files()
        rust = set()
        for path in rt:
            with open(path, encoding="utf-8") as file:
                for line in file:
                    rust |= set(re.findall(r"[A-Za-z_]\w*", code_of(line, "//")[0]))
        for n in sorted(old):
            print(n, old[n], "IN-USE" if old[n] in names else "", "RUST" if old[n] in rust else "", "TWICE" if len(taken[old[n]]) > 1 else "")
        return 0
    if not old:
        print("nothing to respell")
        return 0
    pattern = re.compile(rf"(?<!{WORD})(?:{'|'.join(re.escape(n) for n in sorted(old, key=len, reverse=True))})(?!{WORD})")
    count = 0
    for group, mark in zip(files(), ("--", "//")):
        for path in group:
            with open(path, encoding="utf-8") as file:
                lines = file.read().split("\n")
            new = []
            for line in lines:
                code, comment = code_of(line, mark)
                new.append(pattern.sub(lambda m: old[m[0]], code) + comment)
            if new != lines:
                count += 1
                with open(path, "w", encoding="utf-8") as file:
                    file.write("\n".join(new))
    print(f"{len(old)} names respelled in {count} files")
    return 0


if __name__ == "__main__":
    sys.exit(main(sys.argv[1:]))
