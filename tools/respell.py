#!/usr/bin/env python3
"""Spells the names that this repository declares as Rattle's library does: words in snake case, with `_` for a dash.

usage: tools/respell.py [--check] [FOLDER]      FOLDER is the top of the repository (default: the current folder)

What turns: each name that a file of specs/ or proofs/ declares (definitions, lemmas, fields, constructors, parameters of a module), each
field of a struct of src/, and each variable that a proof binds, where it has a dash or a capital behind a small letter. Types and facts
(a capital first) keep their letters. A lemma that would get a definition's name gets `_lem` behind it. What stays: functions of src/, strings, names of the libraries, and what Rattle makes for a proof.
In a comment a name with a dash turns only in backticks or before the `==` of a glossary. A line `meet:` names words of a file that are
then spelled alike: a definition and a function of src/ may be, since no clause can name a function.
"""
import glob
import os
import re
import sys

NAME = r"[^\s(){}.;,@\"«»`\[\]:]+"
TOKEN = re.compile(NAME)
FUNCTION_FILE = re.compile(r"/proofs/(?:.*/)?(Proof|Answers|Invariants)\.antt$")
COMMENT = {".antt": re.compile(r"(?<![^\s(){}.;,@\"«»])--[^\n]*"), ".rt": re.compile(r"//[^\n]*")}
STRING = re.compile(r'"(?:[^"\\\n]|\\.)*"')
USE = re.compile(r"\buse ([^\s;{]+?)(?:\.\{([^}]*)\})?(?: as (\S+?))?\s*;?[ \t]*$", re.M)
ODD = re.compile(r"-|[a-z0-9][A-Z]")
# Names of Rattle's own that a proof of a function declares.
MADE = re.compile(r"(invariant|decreases)-.*|.*-spec")


# Lemmas that would have the name of a definition: they get `_lem`.
LEMMAS = set()


def spelled(name):
    if name in LEMMAS:
        return plain(name) + "_lem"
    return plain(name)


def plain(name):
    if not ODD.search(name) or "◌" in name:
        return name
    new = name.replace("-", "_")
    if re.match(r"[a-zα-ω]", new):
        new = re.sub(r"(?<=[a-z0-9₀-₉'])[A-Z]", lambda m: "_" + m[0].lower(), new)
    return new


def files(top, crates):
    for c in crates:
        for part in ("specs", "proofs", "src"):
            for ending in ("antt", "rt"):
                yield from sorted(glob.glob(f"{top}/crates/{c}/{part}/**/*.{ending}", recursive=True))


def parts_of(text, ending):
    """The text in parts: (kind, text) with kind code, string or comment."""
    out, at = [], 0
    both = re.compile(f"({COMMENT[ending].pattern})|({STRING.pattern})")
    for m in both.finditer(text):
        out += [("code", text[at : m.start()]), ("comment" if m[1] else "string", m[0])]
        at = m.end()
    return out + [("code", text[at:])]


def code_of(text, ending):
    return "".join(t if k == "code" else " " for k, t in parts_of(text, ending))


def from_libraries(code, crates):
    """The names that a file takes from the libraries."""
    out = set()
    for m in USE.finditer(code):
        steps = m[1].split(".")
        if steps[0] == "Rattle" and len(steps) > 1 and steps[1] in crates:
            continue
        for it in (m[2] or "").split(","):
            words = it.split()
            if words:
                out.add(words[-1])
                out.add(words[0])
    return out


HEAD = re.compile(r"(?m)^[ \t]*(?:abbrev |unfoldable |pub |mutual )*(" + NAME + r")(?: \{[^{}\n]*\})* :(?=\s)")
RECORD = re.compile(r"\s*(?:pub |abbrev )*record [^{]*$")
RECORD_FIELD = re.compile(r"(\s+(?:pub )?)([^\s:(){}]+) :( |$)")


def record_fields(text):
    """Where the fields of records are declared: from each place, the name."""
    out, at, level = {}, 0, None
    for line in text.split("\n"):
        indent = len(line) - len(line.lstrip())
        if level is not None and line.strip() and not line.lstrip().startswith("--") and indent <= level:
            level = None
        if RECORD.match(line):
            level = indent
        elif level is not None:
            m = RECORD_FIELD.match(line)
            if m and indent > level:
                out[at + len(m[1])] = m[2]
        at += len(line) + 1
    return out


BINDERS = re.compile(r"[({]((?:" + NAME + r" )+)(?=: )|λ ((?:" + NAME + r" ?)+)\.|\blet (" + NAME + r")(?= )")
STRUCT = re.compile(r"(?s)\bstruct \w+[^;{(]*\{(.*?)\n\}")
FIELD = re.compile(r"(?m)^\s*(?:pub )?(\w+): ")


def main():
    words = sys.argv[1:]
    check = "--check" in words
    words = [it for it in words if it != "--check"]
    top = words[0] if words else "."
    crates = sorted(os.path.basename(os.path.dirname(it)) for it in glob.glob(f"{top}/crates/*/src"))
    texts = {}
    for p in files(top, crates):
        with open(p, encoding="utf-8") as f:
            texts[p] = f.read()
    declared, fields, bound = set(), set(), {}
    for p, t in texts.items():
        ending = os.path.splitext(p)[1]
        code = code_of(t, ending)
        if ending == ".rt":
            for body in STRUCT.findall(code):
                fields.update(FIELD.findall(body))
            continue
        own = set()
        for m in BINDERS.finditer(code):
            own.update(it for g in m.groups() if g for it in g.split())
        heads = set(HEAD.findall(code))
        if FUNCTION_FILE.search(p):
            own |= heads
        else:
            declared |= heads
            declared |= own
        bound[p] = {it for it in own if ODD.search(it) and not MADE.fullmatch(it)}
    camels = {plain(it): it for it in declared | fields if re.search("[a-z0-9][A-Z]", it) and plain(it) != it}
    for it in sorted(declared):
        if plain(it) in camels and it != camels[plain(it)] or "-" in it and plain(it) in declared:
            LEMMAS.add(it)
    declared = {it for it in declared if ODD.search(it) or it in LEMMAS}
    fields = {it for it in fields if ODD.search(it)}
    every = declared | fields
    of_records = set()
    for p, t in texts.items():
        if p.endswith(".antt"):
            of_records.update(record_fields(t).values())
    problems, out = [], {}

    def turned(word, before, after, ending):
        """A function of src/, a field and what stands behind a dot get no `_lem`."""
        is_field = word in of_records and after == " = " and re.search(r"[{;]\s*$", before)
        return plain(word) if ending == ".rt" or before.endswith(".") or is_field else spelled(word)

    for p, t in texts.items():
        ending = os.path.splitext(p)[1]
        code = code_of(t, ending)
        lent = from_libraries(code, crates)
        mine = (every | bound.get(p, set())) - lent
        is_function = bool(FUNCTION_FILE.search(p))

        places = record_fields(t) if ending == ".antt" else {}

        def turn(m, text, start):
            word = m[0]
            if start + m.start() in places:
                return plain(word) if word in mine else word
            if word not in mine or word.startswith("--"):
                return word
            before = text[max(0, m.start() - 60) : m.start()]
            if before.endswith(("tie.", "goal.")):
                return word
            return turned(word, before, text[m.end() : m.end() + 3], ending)

        def in_comment(text):
            def quoted(m):
                return TOKEN.sub(lambda w: spelled(w[0]) if w[0] in mine else w[0], m[0])

            text = re.sub(r"`[^`\n]*`", quoted, text)
            gloss = re.match(r"(--\s+)(.*?)(\s==\s.*)$", text, re.S)
            if gloss:
                word = plain if "/specs/" in p else spelled
                text = gloss[1] + TOKEN.sub(lambda w: word(w[0]) if w[0] in mine else w[0], gloss[2]) + gloss[3]
            return TOKEN.sub(lambda w: plain(w[0]) if w[0] in mine and "-" not in w[0] else w[0], text)

        new, at = [], 0
        for kind, part in parts_of(t, ending):
            if kind == "code":
                new.append(TOKEN.sub(lambda m, part=part, at=at: turn(m, part, at), part))
            elif kind == "comment":
                new.append(in_comment(part))
            else:
                new.append(part)
            at += len(part)
        new = "".join(new)
        old_words = set(TOKEN.findall(code))
        meet = {}
        for w in old_words:
            n = spelled(w) if w in mine else w
            meet.setdefault(n, set()).add(w)
        for n, ws in sorted(meet.items()):
            if len(ws) > 1 and any(w in mine for w in ws):
                problems.append(f"{os.path.relpath(p, top)}: {' and '.join(sorted(ws))} would both be {n}")
        if new != t:
            out[p] = new
    for it in problems:
        print("meet: " + it)
    if check:
        print(f"{len(every)} names, {len(out)} files")
        return
    for p, t in out.items():
        with open(p, "w", encoding="utf-8") as f:
            f.write(t)
    pages = [f"{top}/README.md", *glob.glob(f"{top}/docs/**/*.md", recursive=True)]
    for p in pages:
        if os.path.isfile(p) and not p.endswith("docs/PORT.md"):
            with open(p, encoding="utf-8") as f:
                t = f.read()

            def quoted(m):
                return TOKEN.sub(lambda w: spelled(w[0]) if w[0] in every else w[0], m[0])

            new = re.sub(r"`[^`\n]*`", quoted, t)
            if new != t:
                with open(p, "w", encoding="utf-8") as f:
                    f.write(new)
    print(f"{len(every)} names, {len(out)} files")


if __name__ == "__main__":
    main()
