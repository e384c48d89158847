#!/usr/bin/env python3
"""Brings the repository's own definitions and lemmas to snake case: usage: respell.py [ROOT]

Run once, after the toolchain's own scripts: `lowerCamel` names and names joined by dashes that specs/ and proofs/ declare become words joined
by `_`. Types, modules and operators keep their names; so do functions of src/, goals, and what is imported from a library.
It refuses to write where two names would fall together."""
import collections
import glob
import os
import re
import sys

WORD = r"[^\s(){}.;,«»:λ`'\"|\[\]]+'*"
# units of measure, whose capital is no start of a word
UNITS = {"mA": "ma", "mV": "mv", "dC": "dc", "mAms": "ma_ms"}
GOAL = re.compile(r"^(returns|loop|invariant|decreases|overflow|bounds|slice_bounds|nonzero|ghost)(-|$)|-spec$|-requires(-\d+)?$|^Need-")


def read(path):
    with open(path, encoding="utf-8") as f:
        return f.read()


def snake(name):
    if name in UNITS:
        return UNITS[name]
    name = name.replace("-", "_")
    name = re.sub(r"([a-z0-9₀-₉])([A-Z])", lambda m: m[1] + "_" + m[2].lower(), name)
    return name


def words_beside(root):
    """For each word, the words of the files that it stands in."""
    beside = collections.defaultdict(set)
    for path in glob.glob(os.path.join(root, "crates/*/specs/**/*.antt"), recursive=True) + glob.glob(os.path.join(root, "crates/*/proofs/**/*.antt"), recursive=True):
        words = set(re.findall(WORD, no_comments(read(path))))
        for w in words:
            if "-" in w:
                beside[w] |= words
    return beside


def renamed(found, fields, beside):
    """The new name of each name, and those that fall together. Of a definition and a lemma that would have one name the lemma gets `_lem`."""
    camel = {n: snake(n) for n in list(found) + list(fields) if re.match(r"^[a-z]", n) and re.search(r"[A-Z]", n) and "-" not in n}
    dashed = {n: snake(n) for n in list(found) + list(fields) if "-" in n and re.search(r"[a-z]", n)}
    tops = {s for n, s in camel.items() if n in found} | {n for n in found if n not in camel and n not in dashed}
    names = dict(camel)
    for n, s in dashed.items():
        names[n] = s + "_lem" if s in tops or s in beside[n] else s
    for n, s in camel.items():
        if n in found and s in found:
            names[s] = s + "_lem"
    back = collections.defaultdict(set)
    for n in found:
        back[names.get(n, n)].add(n)
    return {n: s for n, s in names.items() if n != s}, [f"{s}: {sorted(of)}" for s, of in sorted(back.items()) if len(of) > 1]


def no_comments(text):
    return re.sub(r"--.*", "", text)


def declared(root):
    """The names that specs/ and proofs/ declare, each with where."""
    names, fields = collections.defaultdict(set), collections.defaultdict(set)
    for path in glob.glob(os.path.join(root, "crates/*/specs/**/*.antt"), recursive=True) + glob.glob(os.path.join(root, "crates/*/proofs/**/*.antt"), recursive=True):
        of_function = os.path.basename(path) in ("Proof.antt", "Answers.antt", "Invariants.antt")
        record = False
        for line in no_comments(read(path)).split("\n"):
            if re.match(r"\S", line):
                record = bool(re.match(r"(pub )?record ", line))
            m = re.match(r"^\s*(?:(?:abbrev|unfoldable|pub|ruleset) )*(" + WORD + r") :(?!:)(.*)", line)
            if not m:
                continue
            if of_function and (GOAL.search(m[1]) or re.match(r"\s*(tie|goal)\.", m[2])):
                continue
            (fields if record and line[0] == " " else names)[m[1]].add(path)
    return names, fields


def foreign(text, own):
    """The names that a file imports from a library."""
    out = set()
    for m in re.finditer(r"(?m)^\s*(?:pub )?(?:ghost )?use ([^\s{;]+?)\.\{([^}]*)\}", text):
        of = re.match(r"Rattle\.(\w+)\.", m[1] + ".")
        if of and of[1] in own:
            continue
        for item in m[2].split(","):
            words = item.split()
            if words:
                out.add(words[-1])
    return out


def turn(text, names, skip):
    def one(m):
        w = m[0]
        if w in skip:
            return w
        if w in names:
            return names[w]
        if re.match(r"^[a-z][a-z0-9]*[A-Z][A-Za-z0-9₀-₉]*'*$", w):
            return snake(w)
        return w

    return re.sub(WORD, one, text)


def turn_antt(text, names, own):
    skip = foreign(text, own)
    lines = []
    for line in text.split("\n"):
        code, mark, comment = line.partition("--")
        comment = re.sub(r"`[^`]*`", lambda m: turn(m[0], names, skip), comment)
        comment = re.sub(r"\b[a-z][a-z0-9]*[A-Z][A-Za-z0-9]*\b", lambda m: snake(m[0]) if m[0] in names else m[0], comment)
        lines.append(turn(code, names, skip) + mark + comment)
    return "\n".join(lines)


def clauses(text):
    """The spans of a .rt file that are antt: ghost imports and clauses."""
    for m in re.finditer(r"(?m)^[ \t]*(?:pub )?ghost use [^;]*;", text):
        yield m.start(), m.end()
    for m in re.finditer(r"(?m)^[ \t]*(?:requires|ensures)\b[^\n{]*\{", text):
        deep, i = 1, m.end()
        while deep:
            deep += {"{": 1, "}": -1}.get(text[i], 0)
            i += 1
        yield m.end(), i


def turn_rt(text, names, own):
    skip = foreign(text, own)
    out, at = [], 0
    for a, b in sorted(clauses(text)):
        if a < at:
            continue
        out += [text[at:a], turn(text[a:b], names, skip)]
        at = b
    return "".join(out + [text[at:]])


def main(argv):
    root = argv[0] if argv else "."
    own = set(os.listdir(os.path.join(root, "crates")))
    found, fields = declared(root)
    names, bad = renamed(found, fields, words_beside(root))
    if bad:
        print("fall together:", *bad, sep="\n  ")
        return 1
    n = 0
    for path in sorted(glob.glob(os.path.join(root, "crates/*/specs/**/*.antt"), recursive=True) + glob.glob(os.path.join(root, "crates/*/proofs/**/*.antt"), recursive=True) + glob.glob(os.path.join(root, "crates/*/src/**/*.rt"), recursive=True)):
        text = read(path)
        new = turn_antt(text, names, own) if path.endswith(".antt") else turn_rt(text, names, own)
        if new != text:
            n += 1
            with open(path, "w", encoding="utf-8") as f:
                f.write(new)
    print(f"{len(names)} names, {n} files")
    return 0


if __name__ == "__main__":
    raise SystemExit(main(sys.argv[1:]))
