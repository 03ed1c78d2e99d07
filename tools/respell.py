#!/usr/bin/env python3
"""Brings the repository's own names to today's spelling: words, lemmas, fields and constructors in snake case, types and modules in camel case.

usage: tools/respell.py [--list]     at the top of the repository, once, after the kit's port.py

A name that a text of specs/ or proofs/ declares and that has a hump or a dash is written with underscores: `encTy-injective` becomes
`enc_ty_injective`. Names that begin with # quote Rodin's names of tags and stay. Functions of src/, exported names, strings, inputs
and outputs keep theirs. What Rattle generates in a function's proof (goals, steps) has dashes of its own and stays. --list prints the
names and where two fall together, and writes nothing.
"""
import os
import re
import sys

WORD = r"[^\s(){}\[\].;,@\"«»`⌜⌝|]+"
HUMP = re.compile(r"[a-z0-9'][A-Z]")
DECLARED = re.compile(
    r"^[ ]*(?:(?:pub|abbrev|unfoldable|data|record|mutual) +)*(" + WORD + r"(?: +" + WORD + r")*?)(?: *\{[^{}]*\})*(?: *\([^()]*(?:\([^()]*\)[^()]*)*\))* +:(?= |$)",
    re.M,
)
NOT_NAMES = {"let", "in", "where", "elim", "λ", "use", "as", "of", "rw", "go", "module", "--", "→", "∷", "×", "=", "≡", "mutual", "pub", "abbrev", "unfoldable", "data", "record", "_", "deriving"}
# generated or the library's, met in declarations
KEPT = {"rule"}


def spelled(name):
    words = re.sub(r"(?<=[a-z0-9'])[A-Z]", lambda m: "_" + m[0].lower(), name) if not name[:1].isupper() else name
    return words.replace("-", "_")


def texts(top, kinds):
    for folder, dirs, files in os.walk(top):
        dirs[:] = sorted(d for d in dirs if d not in ("out", "target", ".git"))
        for f in sorted(files):
            if f.endswith(kinds):
                yield os.path.join(folder, f)


def without_comments(text):
    return re.sub(r"(?<![^\s(){}.;,@\"])--[^\n]*", "", text)


def is_walk(path):
    """A proof of a function, whose names are mostly what Rattle generates."""
    parts = path.split(os.sep)
    i = len(parts) - 1 - parts[::-1].index("proofs") if "proofs" in parts else 0
    return "proofs" in parts and (parts[-1] in ("Proof.antt", "Answers.antt", "Invariants.antt") or "Proof" in parts[i:-1])


def declared(text):
    names = set()
    for m in DECLARED.finditer(without_comments(text)):
        names.update(w for w in m[1].split() if w not in NOT_NAMES)
    return names


def own_names():
    names, all_declared = set(), set()
    for p in texts("crates", (".antt",)):
        with open(p, encoding="utf-8") as f:
            text = f.read()
        found = declared(text)
        # parameters and bound names with a hump or a dash
        bound = set(re.findall(r"[({]((?:" + WORD + r" +)*" + WORD + r") : ", without_comments(text)))
        found |= {w for b in bound for w in b.split() if HUMP.search(w) and not w[:1].isupper()}
        all_declared |= found
        if is_walk(p):
            found = {n for n in found if HUMP.search(n) and not n[:1].isupper() or n.endswith("-spec")}
        names |= found
    names = {n for n in names if n[:1] not in "#=-" and (("-" in n.strip("-") and re.search(r"\w-\w|\w-[₀-₉]", n)) or (HUMP.search(n) and not n[:1].isupper()))}
    names -= imported()
    table = {n: spelled(n) for n in names if spelled(n) != n and n not in KEPT}
    meet = {}
    for n in sorted(table):
        meet.setdefault(table[n], []).append(n)
    for new, olds in meet.items():
        if len(olds) > 1:
            # the definition has a hump, the lemma about it a dash
            for n in olds:
                if "-" in n:
                    table[n] = new + "_lem"
    return table, all_declared


def imported():
    """The names that texts take from a library."""
    names = set()
    own = set(os.listdir("crates"))
    for p in texts("crates", (".antt", ".rt")):
        with open(p, encoding="utf-8") as f:
            for m in re.finditer(r"\buse ([^\s;{]+)\{([^;}]*)\}", f.read()):
                steps = m[1].split(".")
                if not (steps[0] == "Rattle" and steps[1] in own):
                    names.update(w.strip() for w in m[2].split(","))
    return names


TOKEN = re.compile(r"(\.?)(" + WORD + r")")


def turn_code(text, table, walk):
    def token(m):
        dot, w = m[1], m[2]
        if w in table and not (walk and dot and "-" in w):
            return dot + table[w]
        # names joined by :: or an operator's holes stay whole words
        return m[0]

    return TOKEN.sub(token, text)


def turn_antt(text, table, walk):
    out = []
    for line in text.split("\n"):
        m = re.search(r"(?<![^\s(){}.;,@\"])--", line)
        code, comment = (line[: m.start()], line[m.start():]) if m else (line, "")
        out.append(turn_code(code, table, walk) + turn_comment(comment, table))
    return "\n".join(out)


# Two names that would fall together: a lemma gets _lem where a definition has its name (the left column is met after port.py).
LEMMAS = {
    "is-empty": "is_empty_lem",
    "is-type": "is_type_lem",
    "op-of": "op_of_lem",
    "or-else": "or_else_lem",
    "same-ty": "same_ty_lem",
}
AFTER_PORT = "after_first all_digits bool_at close_up is_true joined_bytes no_place of_two same_bool same_tys single_of some_of turned_down".split()


def turn_comment(text, table):
    def token(m):
        w = m[2].rstrip(":?!…")
        return m[1] + table[w] + m[2][len(w):] if w in table else m[0]

    return TOKEN.sub(token, text)


STRING = re.compile(r'b?"(?:[^"\\\n]|\\.)*"')


def turn_rt(text, table):
    out, last = [], 0
    for m in STRING.finditer(text):
        out += [turn_comment(text[last:m.start()], table), m[0]]
        last = m.end()
    return "".join(out + [turn_comment(text[last:], table)])


def others(declared_now, table):
    """Edits, pages and scripts: a name that a text declares now under its new spelling."""
    class Table(dict):
        def __contains__(self, w):
            return w not in declared_now and w[:1] not in "#=-" and (bool(HUMP.search(w)) and not w[:1].isupper() or bool(re.search(r"\w-\w", w))) and (w in table or spelled(w) in declared_now)

        def __getitem__(self, w):
            return table.get(w, spelled(w))

    return Table()


# What port.py wrote in the code for these, in edits, which it leaves.
EDIT_WORDS = [("_||_", "◌||◌"), ("_+_", "◌+◌"), ("Rattle·frame.specs", "Rattle.frame.specs")]


def main():
    table, everything = own_names()
    table.update(LEMMAS)
    if "--list" in sys.argv:
        for n in sorted(table):
            print(n, table[n], "TOGETHER" if table[n] in everything else "")
        return
    first = {n: n + "_lem" for n in AFTER_PORT}
    for p in list(texts("crates", (".antt", ".rt"))):
        with open(p, encoding="utf-8") as f:
            text = f.read()
        if p.endswith(".antt"):
            one = dict(first)
            if p.startswith("crates/run/"):
                one["first_step"] = "first_step_lem"
            turned = TOKEN.sub(lambda m: m[0] if m[1] else one.get(m[2], m[0]), text)
            turned = turn_antt(turned, table, is_walk(p))
        else:
            turned = turn_rt(text, table)
        if turned != text:
            with open(p, "w", encoding="utf-8") as f:
                f.write(turned)
    now = set()
    for p in texts("crates", (".antt",)):
        with open(p, encoding="utf-8") as f:
            now |= declared(f.read())
    later = others(now, table)
    pages = list(texts("docs", (".md",))) + ["README.md", "compare/README.md", "compare/check-definitions", "tests/definitions", "tests/edits"]
    for p in list(texts("crates", (".edit",))) + pages:
        with open(p, encoding="utf-8") as f:
            text = f.read()
        turned = turn_comment(text, later)
        if p.endswith(".edit"):
            for old, new in EDIT_WORDS:
                turned = turned.replace(old, new)
            turned = re.sub(r"(?<=\w) \.(?=\w)", ".", turned)
        if turned != text:
            with open(p, "w", encoding="utf-8") as f:
                f.write(turned)


if __name__ == "__main__":
    main()
