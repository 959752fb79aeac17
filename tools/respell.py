#!/usr/bin/env python3
"""usage: tools/respell.py [--look] [FOLDER]

Brings the names of the repository's own definitions and lemmas to one spelling: words in snake case, facts and
types in camel case. Names that Rattle makes, names of its libraries and names of src/ stay as they are.
Run once, behind port.py; --look only says what would be renamed and which names would fall together.
"""

import collections
import os
import re
import sys

TOKEN = re.compile(r"[^\s(){}\[\],;.:λ`«»\"]+")
HEAD = re.compile(r"^\s*(?:(?:pub|abbrev|unfoldable|ruleset|private|opaque)\s+|infix[lr]? \d+\s+)*([^\s(){}\[\],;.:λ`]+)\s+:(?:\s|$)")
WORD = re.compile(r"^\s*(?:pub\s+)?(?:data|record|ruleset)\s+([^\s(){}\[\],;.:λ`]+)")
# Goals, steps and proofs, which Rattle names.
MADE = re.compile(r"^(Need|Given|After|Then|Else|In|At|Joined|invariant|decreases|returns|the|loop|ind|fold|rec|out|roll)-|^returns-\d+$|-spec$|^check-Inv-|μ")


# Lemmas whose plain name is a definition's, or another's, and so get an ending.
BESIDE = """accept-at accept-stored after-taken body-fits by-cut bytes-field bytes-of check-at client-number client-of commit-point date-fits
entry-bytes entry-fits exit-fits exit-stored exit-value field-at first-in fixed-at in-comment in-logging in-passing in-range in-state in-text
in-turn is-nil is-short key-length kind-in last-is last-pieces lengths-fit mark-point maxseq-from may-end may-follow meant-fits member-in
next-number number-field number-list number-of of-records on-field part-of payload-at room-for server-from server-hello server-of server-told
setting-at step-at step-of string-list tag-at tag-of time-field time-fits time-of timed-in-range timeout-from turn-of under-way up-to
valid-records value-at window-fits within-area""".split()
OTHER = {n: n.replace("-", "_") + "_lem" for n in BESIDE}
# The same for names that port.py has turned: by the module that declares them.
TURNED = {
    "Rattle.claim_touches.proofs.Touches": "at_mark",
    "Rattle.conf_content.proofs.Ends": "but_last",
    "Rattle.write_forms.proofs.Values": "left_out",
    "Rattle.session_fast_accept.proofs.KeyLaws": "same_bytes",
    "Rattle.wire_check_field.proofs.Steps": "step_from",
    "Rattle.session_turn.proofs.Turns": "turn_at",
}


def respelled(name):
    if name in OTHER:
        return OTHER[name]
    if not re.fullmatch(r"[A-Za-z][A-Za-z0-9_'′-]*", name):
        return name
    name = name.replace("′", "'")
    if name[0].isupper():
        parts = name.split("-")
        if len(parts) == 1:
            return name
        return parts[0] + "".join(p[:1].upper() + p[1:] for p in parts[1:])
    name = re.sub(r"([a-z0-9'])([A-Z])", lambda m: m[1] + "_" + m[2].lower(), name)
    return name.replace("-", "_")


def texts(root, *endings):
    for folder, dirs, files in os.walk(os.path.join(root, "crates")):
        dirs[:] = sorted(d for d in dirs if d != "out")
        for f in sorted(files):
            if f.endswith(endings):
                yield os.path.join(folder, f)


def library_names(lines):
    """What a file imports from the libraries."""
    names = set()
    for line in lines:
        m = re.match(r"^\s*(?:pub |ghost )*use ([^{]*?)\.\{(.*)\}", line)
        if m and (not m[1].startswith("Rattle.") or m[1].startswith(("Rattle.std.", "Rattle.core."))):
            names |= {n.strip() for n in m[2].split(",")}
    return names


def declared(root):
    """The names that files of specs/ and proofs/ declare, but for proofs of functions."""
    names, local = set(), collections.defaultdict(set)
    for path in texts(root, ".antt"):
        for line in open(path, encoding="utf-8"):
            if line.lstrip().startswith("--"):
                continue
            m = HEAD.match(line) or WORD.match(line)
            if m and not MADE.search(m[1]):
                if path.endswith("/Proof.antt"):
                    local[path].add(m[1])
                else:
                    names.add(m[1])
    return names, local


def clauses(text):
    """The parts of a source file that are antt: imports and clauses, by start and end."""
    for m in re.finditer(r"(?m)^\s*ghost use [^;]*;", text):
        yield m.span()
    for m in re.finditer(r"\b(?:requires|ensures|ghost|invariant)\b\*?(?: \w+)?:? \{", text):
        depth, at = 1, m.end()
        while depth:
            depth += {"{": 1, "}": -1}.get(text[at], 0)
            at += 1
        yield m.end(), at


def turned(text, names, skip, code):
    def word(m):
        t = m[0]
        if t not in names or t in skip:
            return t
        if m.start() and text[m.start() - 1] == "." and t.replace("-", "_") in code:
            return t  # a step of the code's walk, which Rattle names
        return names[t]

    return TOKEN.sub(word, text)


def main(argv):
    look = "--look" in argv
    argv = [a for a in argv if a != "--look"]
    root = argv[0] if argv else "."
    found, local = declared(root)
    source = set()
    for path in texts(root, ".rt"):
        source |= set(re.findall(r"\w+", open(path, encoding="utf-8").read()))
    names = {n: respelled(n) for n in found if respelled(n) != n}
    clashes = 0
    for path in texts(root, ".antt", ".rt"):
        text = open(path, encoding="utf-8").read()
        skip = library_names(text.splitlines()) - {""}
        own = dict(names)
        for module, n in TURNED.items():
            crate, rest = module.split(".")[1], "/".join(module.split(".")[2:])
            if path.endswith(f"crates/{crate}/{rest}.antt") or re.search(re.escape(module) + r"\.\{[^}]*\b" + n + r"\b", text):
                own[n] = n + "_lem"
        own.update({n: respelled(n) for n in local.get(path, ()) if respelled(n) != n})
        if path.endswith(".rt"):
            spans = sorted(set(clauses(text)))
            tokens = set(TOKEN.findall(" ".join(text[a:b] for a, b in spans)))
            new, at = "", 0
            for a, b in spans:
                new += text[at:a] + turned(text[a:b], own, skip, ())
                at = b
            new += text[at:]
        else:
            tokens = set(TOKEN.findall(text))
            new = turned(text, own, skip, source if path.endswith("/Proof.antt") else ())
        back = collections.defaultdict(set)
        for t in tokens:
            back[own[t] if t in own and t not in skip else t].add(t)
        for t, olds in sorted(back.items()):
            if len(olds) > 1:
                clashes += 1
                print(f"falls together: {os.path.relpath(path, root)}: {' '.join(sorted(olds))}")
        for t in tokens & skip & set(own):
            print(f"of a library: {os.path.relpath(path, root)}: {t}")
        if new != text and not look:
            with open(path, "w", encoding="utf-8") as f:
                f.write(new)
    if look:
        for n in sorted(names):
            print(f"rename: {n} {names[n]}")
    print(f"{len(names)} names, {clashes} fall together")


main(sys.argv[1:])
