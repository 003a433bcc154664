#!/usr/bin/env python3
"""respell.py: brings the repository's own definitions and lemmas to the kit's spelling, once, right after the kit's port.py has run.

Words are in snake case. A dash stays where it joins two names, as in `has-zero`: both sides are words of VOCABULARY, or functions that
specs/ defines; elsewhere it becomes `_`. Names that antt's generated proofs cite (declared in Proof.antt files) and functions of src/ keep
their spelling. Prints the table, old name and new. `respell.py --words FILE..` respells texts by a table on standard input."""
import collections
import glob
import re
import sys

IDENT = r"[^\s(){}\[\]:.;,@\"«»`]+"
VOCABULARY = set("""zero suc add sub mul div mod pow and or xor not length take drop append cons nil map get_or set min max le lt eq eqb
ltb leb true false cond sum count replicate insert one""".split())


def files(*patterns):
    return sorted(f for p in patterns for f in glob.glob(p, recursive=True))


def snake(word):
    if not word[0].islower():
        return word
    word = re.sub(r"(?<=[a-z])([A-Z])", lambda m: "_" + m.group(1).lower(), word)
    return word.replace("get_d", "get_or")


def declared(f):
    """The names that an antt file declares: functions, fields, constructors, types."""
    for line in open(f, encoding="utf-8"):
        m = re.match(r"\s*(?:(?:pattern|unfoldable|abbrev|pub|private)\s+)*((?:%s\s+)*%s)(?:\s*\{ℓ[^}]*\})?\s*:(?:\s|$)" % (IDENT, IDENT), line)
        if m and not line.lstrip().startswith("--"):
            yield from m.group(1).split()
        m = re.match(r"\s*(?:pub )?(?:data|record)(?: pub)? (%s)" % IDENT, line)
        if m:
            yield m.group(1)


def table():
    specs = files("crates/*/specs/**/*.antt")
    proofs = [f for f in files("crates/*/proofs/**/*.antt") if not f.endswith("Proof.antt")]
    own = collections.defaultdict(set)
    for f in specs + proofs:
        for n in declared(f):
            own[n].add(f)
    for f in specs + proofs + files("crates/*/proofs/**/Proof.antt", "crates/*/src/**/*.rt"):
        for n in re.findall(r" as ([a-z]\w*)", "\n".join(re.findall(r"^(?:ghost |pub )?use .*", open(f, encoding="utf-8").read(), re.M))):
            own[n].add(f)
    names = {snake(n) for f in specs for n in declared(f) if "-" not in n} | VOCABULARY
    functions = set()
    for f in files("crates/*/src/**/*.rt"):
        functions |= set(re.findall(r"\bfn (\w+)", open(f, encoding="utf-8").read()))
    turned = {}
    for n in own:
        if not re.search(r"-|[a-z][A-Z]", n) or not re.match(r"[a-zA-Z]", n):
            continue
        parts = [snake(p) for p in n.split("-")]
        # runs of words that are one name together, as all_below, count as that name
        out = parts[0]
        tail = parts[0]
        k = 1
        while k < len(parts):
            joined = next((j for j in range(len(parts), k, -1) if "_".join(parts[k:j]) in names), None)
            word = "_".join(parts[k:joined]) if joined else parts[k]
            dash = joined is not None and any("_".join(parts[i:k]) in names for i in range(k)) and tail != ""
            out += ("-" if dash else "_") + word
            k = joined if joined else k + 1
        if out != n:
            turned[n] = out
    # a lemma that would have its function's name gets `_lem`; a word of specs/ may have the name of the function that it describes
    words = {t for n, t in turned.items() if "-" not in n} | functions
    for n, t in turned.items():
        if "-" in n and t in words:
            turned[n] = t + "_lem"
    back = collections.Counter(turned.values())
    every = set()
    for f in specs + proofs:
        every |= set(re.findall(r"(?<![.\w])" + IDENT, re.sub(r"--.*", "", open(f, encoding="utf-8").read())))
    clash = {n: t for n, t in turned.items() if back[t] > 1 or t in every}
    return turned, clash


def respell(text, turned, comment):
    """The text with its names turned: in comments only those between backquotes."""
    token = re.compile(IDENT)
    turn = lambda t: token.sub(lambda m: turned.get(m.group(0), m.group(0)), t)
    quoted = lambda t: re.sub(r"`([^`\n]*)`", lambda m: "`" + turn(m.group(1)) + "`", t)
    if comment is None:
        return quoted(text)
    out = []
    for line in text.split("\n"):
        at = re.search(comment, line)
        out.append(line if at is None and not line else turn(line) if at is None else turn(line[: at.start()]) + quoted(line[at.start():]))
    return "\n".join(out)


def main():
    turned, clash = table()
    # names that fall together are looked at by hand
    for n, t in sorted(clash.items()):
        print(f"clash: {n} {t}", file=sys.stderr)
    if "--dry" in sys.argv:
        for n, t in sorted(turned.items()):
            print(n, t)
        return
    for f in files("crates/*/specs/**/*.antt", "crates/*/proofs/**/*.antt", "crates/*/src/**/*.rt", "crates/*/must-fail/*.edit", "docs/*.md", "*.md"):
        old = open(f, encoding="utf-8").read()
        comment = None if f.endswith(".md") else "(?<!\\S)--(?= |$)" if f.endswith(".antt") else "//" if f.endswith(".rt") else "^file:"
        new = respell(old, turned, comment)
        if f.endswith(".rt"):
            # code keeps its names: only contracts and ghost imports are turned
            new = contracts(old, turned)
        if new != old:
            open(f, "w", encoding="utf-8").write(new)
    for n, t in sorted(turned.items()):
        print(n, t)


def contracts(text, turned):
    out = []
    inside = 0
    for line in text.split("\n"):
        code = line.split("//")[0]
        if inside or re.match(r"\s*(ghost use|requires|ensures)\b", code):
            inside += code.count("{") - code.count("}")
            line = respell(line, turned, "//")
        elif "//" in line:
            line = respell(line, {}, "//") if not code.strip() else line
            line = code + re.sub(r"`([^`]*)`", lambda m: "`" + turned.get(m.group(1), m.group(1)) + "`", line[len(code):])
        out.append(line)
    return "\n".join(out)


if __name__ == "__main__":
    main()
