#!/usr/bin/env python3
"""Brings the names that the repository's own antt declares (definitions, lemmas, fields, constructors) to the spelling of today's Rattle:
snake case, with plain underscores; what begins with a capital stays, as does each name that the code of src/ declares.

usage: tools/respell_names.py KIT      at the top of the repository, once, after KIT/port/port.py and before any edit by hand
       tools/respell_names.py KIT --dry  only says what it would rename

It rewrites whole names in crates/ and wide/ (.antt, .rt, .edit and other text but what a program reads and writes), and in the papers (docs/, README.md,
bindings/, compare/, speed/, samples/README.md) the names in backticks alone. Strings of the code keep what they say. It writes what it
renamed to tools/respelled.tsv. It stops where two names would fall together.
"""

import os
import re
import subprocess
import sys

NAME = r"[^\s(){}.;,@\"«»:`]+"
TOKEN = re.compile(NAME)
HEAD = re.compile(
    r"^(\s*)((?:(?:pub|abbrev|unfoldable|instance|opaque|module)\s+)*)([^\s(){}.;,@\"«»:]+)((?:\s+[({][^(){}]*[)}])*)\s*:(?!=)"
)
RUST = re.compile(r"\b(?:fn|mod|struct|enum|trait|const|static|type|let|let mut)\s+(\w+)")
# A function's own proof: its names are Rattle's, or nobody else's.
OF_A_FUNCTION = re.compile(r"/proofs/.*/(Proof|Answers|Invariants)\.antt$")
PAPERS = ("docs", "README.md", "NOTICE", "bindings", "compare", "speed", "samples/README.md")


def in_snake_case(name):
    words = re.sub(r"[A-Z]+(?=[A-Z][a-z])|[A-Z][a-z]+|[A-Z]+", lambda m: "_" + m[0].lower() + ("_" if m[0].isupper() and len(m[0]) > 1 else ""), name)
    return re.sub(r"__+", "_", re.sub(r"_(?=\d)", "", words).replace("-", "_")).strip("_")


def files(root, ends):
    for top in ("crates", "wide"):
        for folder, dirs, names in os.walk(os.path.join(root, top)):
            dirs[:] = sorted(d for d in dirs if d not in ("out", "data"))
            for n in sorted(names):
                if n.endswith(ends):
                    yield os.path.join(folder, n)


def papers(root):
    for it in PAPERS:
        p = os.path.join(root, it)
        if os.path.isfile(p):
            yield p
        for folder, dirs, names in os.walk(p):
            dirs[:] = sorted(d for d in dirs if d not in ("out", "target"))
            for n in sorted(names):
                yield os.path.join(folder, n)


def read(p):
    try:
        with open(p, encoding="utf-8") as f:
            return f.read()
    except UnicodeDecodeError:
        return None


def declared(root):
    """Each name that is declared outside a function's own proof, and where."""
    found = {}
    for p in files(root, (".antt",)):
        if OF_A_FUNCTION.search(p):
            continue
        for i, line in enumerate(read(p).splitlines(), 1):
            if line.lstrip().startswith("--"):
                continue
            m = HEAD.match(line)
            if m and re.match(r"[a-z]", m[3]) and re.search(r"[a-z0-9'][A-Z]|-", m[3]):
                found.setdefault(m[3], []).append(f"{os.path.relpath(p, root)}:{i}")
    return found


def of_the_kit(kit):
    """The names that stand in the libraries' antt, and those of their Rust."""
    words = set()
    for top in ("rattle",):
        for folder, dirs, names in os.walk(os.path.join(kit, top)):
            dirs[:] = [d for d in dirs if d not in ("docs", "sqlite", "out")]
            for n in names:
                if n.endswith(".antt"):
                    words.update(TOKEN.findall(read(os.path.join(folder, n)) or ""))
    return words


def of_the_code(root):
    words = set()
    for p in files(root, (".rt",)):
        text = re.sub(r"//[^\n]*", "", read(p))
        words.update(RUST.findall(text))
        words.update(re.findall(r"\b([a-z]\w*)\s*:(?!:)", text))
    return words


def tokens(root):
    words = set()
    for p in files(root, (".antt", ".rt")):
        words.update(TOKEN.findall(re.sub(r"(--|//)[^\n]*", "", read(p))))
    return words


def unqualified(text):
    """The names of a text that stand behind no dot, without comments and without the paths of its imports (what is imported stays)."""
    text = re.sub(r"(?m)(--(?= )|//)[^\n]*", "", text)
    text = re.sub(r"\buse [^\s{;]*\.(?=\{)", "use ", text)
    text = re.sub(r"\buse [^\s{;]+ as ", "use ", text)
    text = re.sub(r"(?<=[^\s(])\." + NAME, "", text)
    return set(TOKEN.findall(text))


def outside_strings(text, turn):
    out, at = [], 0
    for m in re.finditer(r'"(?:[^"\\\n]|\\.)*"', text):
        out += [turn(text[at : m.start()]), m[0]]
        at = m.end()
    return "".join(out + [turn(text[at:])])


def respell_some(root, dry):
    """The lemmas of SOME, which the port spelled as a definition is spelled that their file knows."""
    for n, places in SOME.items():
        for p in places:
            at = os.path.join(root, "crates", p)
            text = read(at)
            new = TOKEN.sub(lambda m: n + "_lem" if m[0] == n else m[0], text)
            if new == text:
                print("not there:", n, p)
            elif not dry:
                with open(at, "w", encoding="utf-8") as f:
                    f.write(new)


def main(argv):
    root, kit, dry = os.getcwd(), argv[0], "--dry" in argv
    respell_some(root, dry)
    names = declared(root)
    kit_words, code, used = of_the_kit(kit), of_the_code(root), tokens(root)
    by_file = {os.path.relpath(p, root): unqualified(read(p)) for p in files(root, (".antt", ".rt"))}
    at = {}
    for p, words in by_file.items():
        for w in words:
            at.setdefault(w, set()).add(p)
    renamed, bad, kept = {}, [], []
    for n, where in names.items():
        new = GIVEN.get(n) or in_snake_case(n)
        if n in kit_words and n not in OURS:
            kept.append((n, where))
            continue
        both = sorted(p for p in at.get(n, set()) & at.get(new, set()) if p.endswith(".antt"))
        if both and n not in FINE:
            bad.append((n, new, "both in " + " ".join(both), where))
        renamed[n] = new
    back = {}
    for n, new in renamed.items():
        if new in back and ("-" in n) != ("-" in back[new]):
            # a lemma that would have its definition's name
            lemma, word = (n, back[new]) if "-" in n else (back[new], n)
            renamed[lemma], renamed[word] = new + "_lem", new
            back[new], back[new + "_lem"] = word, lemma
            continue
        if new in back:
            bad.append((n, new, "with " + back[new] + " of " + names[back[new]][0], names[n]))
        back[new] = n
    for n, where in kept:
        print("kept, since a library has it:", n, where[0])
    for b in bad:
        print("meets:", *b[:3], b[3][0])
    print(len(renamed), "names,", len(bad), "that meet another")
    if dry or bad:
        return 1 if bad else 0

    def one(m):
        return renamed.get(m[0], m[0])

    def turn(text):
        return TOKEN.sub(one, text)

    for p in files(root, (".antt", ".rt", ".edit")):
        text = read(p)
        new = outside_strings(text, turn)
        if new != text:
            with open(p, "w", encoding="utf-8") as f:
                f.write(new)
    said = {"open-17", "open-18", "opened-18"}  # orders and replies, in the papers
    for p in papers(root):
        text = read(p)
        if text is None:
            continue
        new = re.sub(r"`([^`\n]+)`", lambda m: "`" + (m[1] if m[1] in said else turn(m[1])) + "`", text)
        if new != text:
            with open(p, "w", encoding="utf-8") as f:
                f.write(new)
    with open(os.path.join(root, "tools", "respelled.tsv"), "w", encoding="utf-8") as f:
        f.write("".join(f"{n}\t{new}\n" for n, new in sorted(renamed.items())))
    for c in sorted(os.listdir(os.path.join(root, "crates"))):
        subprocess.run(["rt", "fmt"], cwd=os.path.join(root, "crates", c), stdout=subprocess.DEVNULL, stderr=subprocess.DEVNULL)
    return 0


# Names that get another spelling than by rule, since it is taken.
GIVEN = {"byNumber": "link_by_number", "made-of": "made_of_link", "answer-in": "answer_in_lem", "lengthsDiffer": "lengths_unequal", "moreWithin": "MoreWithin", "inputWithin": "InputWithin"}
# Names whose new spelling stands in the same file as a field of a record, which is no clash.
FINE = {"expectsReply", "notSent"}
SOME = {
    "not_taken": ["demand_3/proofs/ByNumber.antt"],
    "in_order": ["link_model/proofs/Kept.antt"],
    "ended_by": ["stage/proofs/StepLaws.antt", "stage/proofs/state/Stage/report_silence/Proof.antt", "stage/proofs/state/Stage/initiator_hears/Proof.antt"],
    "set_next": ["station_lists/proofs/OurStations.antt"],
    "framed_then": ["telegram/proofs/DrawnLaws.antt"],
    "head_bytes": ["telegram_tx/proofs/ByteLaws.antt"],
}
# Names that a library has too, and that are ours all the same.
OURS = set("sum-append kept-is not-below isOne sent-same start-same step-at first-none rest-is okA first-empty at-end not-before next-is fresh-is made-is first-same tail-is one-step stream-is drop-one digits-stop number-none if-same next-none remove-done".split())

if __name__ == "__main__":
    raise SystemExit(main(sys.argv[1:]))
