#!/usr/bin/env python3
"""Brings the repository's own definitions and lemmas to the spelling of today's Rattle: words in snake case, types in camel case.

usage: python3 tools/respell.py              at the top of the repository, once, right after port.py
       python3 tools/respell.py --aliases    only the names under which files take in others

A word that a file of specs/ or proofs/ declares gets plain underscores (setOf is set_of, has-union is has_union); a type loses its dashes
(Few-clashes is FewClashes). Names that Rattle makes of the code, of src/ and of libraries stay as they are.
It stands on the renamer that came with the kit that the port was made with.
"""

import glob
import os
import re
import sys

NOTES = "/opt/rattle/port/notes/2026-11-18-names-are-in-snake-case"
sys.path.insert(0, NOTES)
sys.dont_write_bytecode = True
import snake  # noqa: E402

NAME = snake.WORD.pattern
DECLARED = re.compile(r"(?m)^ *(?:(?:pub|abbrev|unfoldable|data|record|where|let|mutual|[{;|]) +)*(" + NAME + r")(?: \{[^{}\n]*\})*(?: \([^()\n]*\))* :(?= |$)")
TYPE = re.compile(r"(?m)^ *(?:pub )?(?:data|record) +(" + NAME + ")")
USE = re.compile(r"\buse ([^\s;{]+)(\{[^;]*?\}(?=;|[ \t]*$))?(?: as ([^\s;]+))?", re.M)
MADE = re.compile(r"/proofs/(.*/)?(Answers|Invariants|Proof|Choices)\.antt$")
GOAL = re.compile(r"(?m)^ *(?:pub |abbrev |unfoldable )*(" + NAME + r") : (?:goal|given|need|invariants?)\.")


# Where a lemma and a function meet in one spelling, the lemma gets _lem, as in the library.
LEMMAS = (
    "block-at class-at graph-of in-register in-slot in-turn live-after live-before row-at written-before nexts-from slot-below "
    "source-rows code-rows load-a load-b compile-line goes_on joined_by next_row rows_on run_on"
).split()


def crates():
    return {os.path.basename(it) for it in glob.glob("crates/*")}


def is_own(path, own_crates):
    steps = path.strip(".").split(".")
    return steps[0] != "Rattle" and False or (len(steps) > 1 and steps[0] == "Rattle" and steps[1] in own_crates)


def respelled(name):
    if name[0].isupper() or not name[0].isascii():
        parts = name.split("-")
        return parts[0] + "".join(it[:1].upper() + it[1:] for it in parts[1:])
    words = re.sub(r"(?<=[a-z0-9])[A-Z]", lambda m: "_" + m[0].lower(), name)
    words = words.replace("′", "'").replace("·", "_")
    return re.sub(r"(?<=[A-Za-z0-9_'])-(?=[A-Za-z0-9_])", "_", words)


class Turner(snake.Turner):
    rows, own_crates = {}, set()

    def own(self, code):
        """The names that a library lends this file."""
        lent, own = set(), set()
        for path, items, alias in USE.findall(code):
            names = set()
            for it in (items.strip("{}").split(",") if items else [path.strip(".").split(".")[-1]]):
                names.update(it.split(" as ")[0].split() if " as " in it else it.split())
            (own if is_own(path, self.own_crates) else lent).update(names)
        return lent - own

    def start(self, text, where):
        code = snake.QUIET.sub(" ", text)
        kept = self.own(code)
        if MADE.search("/" + where):
            kept |= set(GOAL.findall(code))
        self.kept = kept
        words = set(snake.WORD.findall(code))
        for old in sorted(words & set(self.rows) - kept):
            new = self.rows[old]
            rivals = [it for it in words if it != old and (it == new or (self.rows.get(it) == new and it not in kept))]
            if rivals:
                self.said.append(f"clash: {where}: {old} -> {new} beside {', '.join(rivals)}")

    def antt(self, text, where, in_code=None):
        if in_code is None:
            self.start(text, where)
        return super().antt(text, where, in_code)

    def rt(self, text, where):
        self.start(re.sub(r"//[^\n]*", " ", text), where)
        # A definition that would be called as a function of the file's code is brought in under a name of its own.
        rust = set(re.findall(r"\bfn (\w+)", text)) | {it for line in re.findall(r"(?m)^(?:pub )?use ([^;]*);", text) for it in re.findall(r"\w+", line)}
        aliased = {old: new for old, new in self.rows.items() if new in rust and old in snake.WORD.findall(snake.QUIET.sub(" ", text)) and old not in self.kept and not re.search(r"\b%s as " % re.escape(old), text)}
        table = self.table
        self.table = {**table, **{old: new + "_of" for old, new in aliased.items()}}
        out = super().rt(text, where)
        self.table = table
        for new in aliased.values():
            out = snake.GHOST_USE.sub(lambda m: re.sub(r"(?<![\w-])%s_of(?![\w-])" % new, "%s as %s_of" % (new, new), m[0]), out)
        return out


ALIAS = re.compile(r" as ([a-z]\w*[A-Z]\w*)")


def respell_aliases():
    """Brings the names under which a file takes in others (union as unionOf) to the same spelling."""
    for where in sorted(glob.glob("crates/*/**/*.rt", recursive=True) + glob.glob("crates/*/**/*.antt", recursive=True)):
        if "/out/" in where:
            continue
        with open(where, encoding="utf-8") as f:
            text = f.read()
        new = text
        for name in sorted(set(ALIAS.findall(text))):
            if re.search(r"\b%s\b" % respelled(name), text):
                print(f"alias: {where}: {name} -> {respelled(name)} is taken")
                continue
            new = re.sub(r"\b%s\b" % name, respelled(name), new)
        if new != text:
            with open(where, "w", encoding="utf-8") as f:
                f.write(new)


def main():
    if "--aliases" in sys.argv[1:]:
        return respell_aliases()
    own_crates = crates()
    texts = sorted(glob.glob("crates/*/specs/**/*.antt", recursive=True) + glob.glob("crates/*/proofs/**/*.antt", recursive=True))
    names = set()
    for it in texts:
        code = snake.QUIET.sub(" ", open(it, encoding="utf-8").read())
        found = set(DECLARED.findall(code)) | set(TYPE.findall(code))
        if MADE.search("/" + it):
            found -= set(GOAL.findall(code))
        names |= found
    table = {it: respelled(it) for it in names if respelled(it) != it}
    table.update({it: respelled(it) + "_lem" for it in LEMMAS if it in names})
    Turner.rows, Turner.own_crates = table, own_crates
    by_new = {}
    for old, new in table.items():
        by_new.setdefault(new, []).append(old)
    for new, olds in sorted(by_new.items()):
        if len(olds) > 1 or new in names:
            print(f"meet: {new}: {', '.join(sorted(olds))}{' and itself' if new in names else ''}")
    path = os.path.join(os.environ.get("TMPDIR", "/tmp"), "respell.tsv")
    with open(path, "w", encoding="utf-8") as f:
        f.writelines(f"{old}\t{new}\n" for old, new in sorted(table.items()))
    snake.Turner = Turner
    base = snake.Turner.antt
    check = ["--check"] if "--check" in sys.argv[1:] else []
    made = [it for it in texts if MADE.search("/" + it)]
    others = [it for it in texts if it not in made]
    sources = sorted(glob.glob("crates/*/src/**/*.rt", recursive=True))
    snake.main([*check, "--table", path, "--prose", "file", "--skip-behind", "goal,c,w,l,g", *made])
    snake.main([*check, "--table", path, "--prose", "file", *others, *sources])
    if not check:
        respell_aliases()
    snake.main([*check, "--only", "md", "--table", path, "README.md", *sorted(glob.glob("docs/*.md"))])


if __name__ == "__main__":
    main()
