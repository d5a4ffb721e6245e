#!/usr/bin/env python3
"""Brings the definitions and lemmas of specs/ and proofs/ to snake case, once, after the porting script of the toolchain.

usage: python3 tools/respell.py [--check]        at the top of the repository, with everything committed

countBelow becomes count_below, count-most becomes count_most; a lemma that would then have the name of a definition of its crate or of a
crate that its users see gets _lem. Names of types and modules, of the functions of src/, names that libraries declare and goals stay.
Each word is looked up where its file has it from: its own declarations, its imports, else the fields of records. A word that would meet
another one in some file is shown on a line 'meet:', and nothing is written. Must-fail edits are turned as the file that they change is.
"""

import collections
import os
import re
import sys

WORD = re.compile(r'[^\s(){}.;,@"«»]+')
DECLARED = re.compile(r'^( *)((?:(?:pub|abbrev|unfoldable|mutual) )*)([^\s(){}.;,@"«»:=]+)(?: \{[^{}\n]*\})* :(?= |$)', re.M)
SEVERAL = re.compile(r'^( *)((?:pub )+)((?:[a-z][^\s(){}.;,@"«»:=]* )+)([a-z][^\s(){}.;,@"«»:=]*) :(?= |$)', re.M)
USE = re.compile(r'(?:ghost )?use ((?:[^\s(){};,]+\.)*[^\s(){};,.]+)(?:\.\{([^}]*)\})?(?: as (\S+?))?;?[ \t]*$', re.M)
ANSWERS = ("Proof.antt", "Answers.antt", "Invariants.antt")
# Names that Rattle makes, behind a dot in a proof of a function.
MADE = re.compile(r"(if|loop|in|else|then|match|arm|returns|args|requires|ensures|in_ok|in_err)\d*(-|$)|.*-(requires|ensures|test|given|came|holds|is)$")
# Lemmas, by the end of their file and their name, whose plain new name is a definition's.
CHOSEN = {
    ("base/proofs/Lowest.antt", "lowest-from"): "lowest_from_lem",
    ("base/proofs/AllBelow.antt", "all-zero"): "all_zero_lem",
    ("names/proofs/NamesRule.antt", "first-fault"): "first_fault_lem",
    ("names/proofs/NamesRule.antt", "is_name"): "is_name_lem",
    ("promises/proofs/CallsReplayed.antt", "counts-as"): "counts_as_lem",
    ("cuts/proofs/LawsCuts.antt", "is-kept"): "is_kept_lem",
    ("hierarchy/proofs/NestsByDepth.antt", "depth-in"): "depth_in_lem",
    ("sheet/proofs/SheetLaws.antt", "no-joints"): "no_joints_lem",
    ("listing/proofs/LineLaws.antt", "pair-part"): "pair_part_lem",
    ("listing/proofs/LineLaws.antt", "alone-part"): "alone_part_lem",
    ("roommates/proofs/EntriesListed.antt", "pair-count"): "pair_count_lem",
    ("skeleton/proofs/AnswerLaws.antt", "is-there"): "is_there_lem",
    ("promises/proofs/ShortenKeeps.antt", "count-bytes"): "count_bytes_lem",
    ("promises/proofs/Alike.antt", "entry-count"): "entry_count_lem",
    ("roommates/proofs/Histories.antt", "stands_after"): "stands_after_lem",
    ("roommates/proofs/Trims.antt", "strike-if"): "strike_if_lem",
    ("roommates/proofs/Emptied.antt", "some-emptied"): "some_emptied_lem",
    ("roommates/proofs/Emptied.antt", "none-emptied"): "none_emptied_lem",
    ("roommates/proofs/Verdicts.antt", "cuts-made"): "cuts_made_lem",
    ("sheet/proofs/ReadAs.antt", "labels-start"): "labels_start_lem",
    ("skeleton/proofs/FollowLaws.antt", "is-stray"): "is_stray_lem",
    ("tariff/proofs/FormLaws.antt", "steps-fault"): "steps_fault_lem",
    ("words/proofs/WordLaws.antt", "word-at"): "word_at_lem",
    ("calls/proofs/Answers.antt", "settled-number"): "settled_number_lem",
    ("calls/proofs/Answers.antt", "shortened-number"): "shortened_number_lem",
    # Two constructors and two fields that would have the names of definitions.
    ("roommates/specs/Runs.antt", "in_one"): "in_phase_one",
    ("roommates/specs/Runs.antt", "in_two"): "in_phase_two",
    ("roommates/specs/Claims.antt", "in_one"): "in_phase_one",
    ("roommates/specs/Claims.antt", "in_two"): "in_phase_two",
    ("roommates/proofs/RuleSaid.antt", "in_one"): "in_phase_one",
    ("roommates/proofs/RuleSaid.antt", "in_two"): "in_phase_two",
}


# A clause's label, which may be spelled as a definition is.
LABELS = {("crates/cuts/src/lib.rt", "lists_after")}


# Fields behind a dot that got another name.
DOTTED = {
    ("promises/proofs/CallsReplayed.antt", "in_one"): "in_phase_one",
    ("promises/proofs/CallsReplayed.antt", "in_two"): "in_phase_two",
}


def p_end(path):
    return path[len("crates/"):]


def snake(name):
    if not name[:1].islower() or re.search(r"[^\w'₀-₉-]", name):
        return name
    return re.sub(r"(?<=[a-z0-9])[A-Z]", lambda m: "_" + m[0].lower(), name).replace("-", "_")


def files():
    for folder, dirs, names in os.walk("crates"):
        dirs[:] = sorted(d for d in dirs if d != "out")
        for f in sorted(names):
            if f.endswith((".antt", ".rt", ".edit")):
                yield os.path.join(folder, f)


def module(path):
    """Rattle.c.proofs.M of crates/c/proofs/M.antt."""
    parts = path[len("crates/"):-len(".antt")].split("/")
    return "Rattle." + ".".join(parts)


def is_answers(path):
    """A file of a function's own folder: crates/c/proofs/F/Proof.antt."""
    parts = path.split("/")
    return parts[-1] in ANSWERS and parts[2] == "proofs" and len(parts) > 4


def turned(path, name):
    for (end, old), new in CHOSEN.items():
        if old == name and path.endswith("/" + end):
            return new
    return snake(name)


def bare(text):
    """The text without comments."""
    return re.sub(r"(?m)(^|\s)--.*$", r"\1", text)


def declared(path, text):
    own, fields = {}, set()
    text = bare(text)
    for m in list(DECLARED.finditer(text)) + list(SEVERAL.finditer(text)):
        for name in m[3].split() + ([m[4]] if m.re is SEVERAL else []):
            rest = text[m.end():m.end() + 60].lstrip()
            if is_answers(path) and (rest.startswith("tie.") or "statement" in rest):
                continue
            own[name] = turned(path, name)
            if m[1] and not is_answers(path):
                fields.add(name)
    return own, fields


def imports(text, mods, rust):
    """The names of a file by its imports: the names of libraries stay, those of the repository turn as their module's do."""
    names, heads = {}, {}
    for m in USE.finditer(bare(text) if not rust else text):
        if rust and not m[0].startswith("ghost"):
            continue
        where, listed, alias = m[1], m[2], m[3]
        if listed is None:
            if where in mods:
                heads[alias or where.split(".")[-1]] = mods[where]
                continue
            where, _, one = where.rpartition(".")
            listed = one + (" as " + alias if alias else "")
        for it in listed.split(","):
            words = it.split()
            if not words:
                continue
            new = mods[where].get(words[0], words[0]) if where in mods else words[0]
            names[words[0]] = new
            if len(words) == 3:
                names[words[2]] = words[2]
    return names, heads


def table(path, text, mods, fields):
    rust = path.endswith(".rt")
    imported, heads = imports(text, mods, rust)
    own = {} if rust else declared(path, text)[0]
    return {**imported, **own}, heads, fields


def turn(path, text, it, rust, seen):
    names, heads, fields = it
    answers = is_answers(path)

    def word(m):
        w = m[0]
        behind = text[m.start() - 1:m.start()] == "."
        if behind:
            before = re.search(r'([^\s(){}.;,@"«»]+)\.$', text[max(0, m.start() - 80):m.start()])
            head = before and before[1]
            path_before = re.search(r'((?:[^\s(){};,@"«»]+\.)+)$', text[max(0, m.start() - 200):m.start()])
            whole = path_before and path_before[1][:-1]
            if head in heads and whole == head:
                new = heads[head].get(w, w)
            elif whole and whole in MODS:
                new = MODS[whole].get(w, w)
            elif (p_end(path), w) in DOTTED:
                new = DOTTED[p_end(path), w]
            elif w in fields and not (answers and MADE.match(w)):
                new = snake(w)
            else:
                new = w
        elif rust and "-" in w and w not in names:
            new = w
        elif w in names:
            new = names[w]
        elif w in fields and not rust:
            new = snake(w)
        else:
            new = w
        if not behind:
            seen[new].add(w)
        return new

    return WORD.sub(word, text)


def turn_comments(path, text, it):
    """Code spans of comments, and words of camel case in them."""
    names = it[0]

    def line(m):
        def span(s):
            w = s[0]
            return names.get(w, ALL.get(w, w)) if re.search(r"[a-z][A-Z]|-", w) else w
        spans = re.sub(r"`([^`\n]+)`", lambda s: "`" + WORD.sub(span, s[1]) + "`", m[0])
        return re.sub(r"\b[a-z]+(?:[A-Z][a-z0-9]*)+\b", span, spans)
    return re.sub(r"--.*$|//.*$|^#.*$", line, text, flags=re.M)


def parts(path, text):
    """Pieces of a text with whether they are code that names definitions."""
    if path.endswith(".antt"):
        cut = re.compile(r'(?:^|(?<=\s))--[^\n]*|"(?:[^"\\\n]|\\.)*"')
    else:
        cut = re.compile(r'//[^\n]*|b?"(?:[^"\\]|\\.)*"')
    at = 0
    for m in cut.finditer(text):
        yield text[at:m.start()], True
        yield m[0], False
        at = m.end()
    yield text[at:], True


CLAUSE = re.compile(r"(?:requires|ensures)\*?(?: \w+)? \{|ghost (?:\w+: |\w+ = |)?\{|ghost use ")


def clauses(text):
    """Cuts Rust's text into clauses and the rest, by their braces."""
    at = 0
    while True:
        m = CLAUSE.search(text, at)
        if not m:
            yield text[at:], False
            return
        yield text[at:m.start()], False
        end = m.end()
        if m[0].startswith("ghost use"):
            end = text.index(";", end) + 1
        else:
            deep = 1
            while deep:
                deep += {"{": 1, "}": -1}.get(text[end], 0)
                end += 1
        yield text[m.start():end], True
        at = end


def turned_text(path, text, it, seen):
    rust = path.endswith(".rt")
    out = []
    if rust:
        for piece, clause in clauses(text):
            out.append(turn(path, piece, it, True, seen) if clause else turn_comments(path, piece, it))
        return "".join(out)
    # Comments are put back as they stand, so that words at their ends see what is before them.
    quiet = []

    def hide(m):
        quiet.append(m[0])
        return f"\x00{len(quiet) - 1}\x00"
    plain = re.sub(r'(?:^|(?<=\s))--[^\n]*|"(?:[^"\\\n]|\\.)*"', hide, text, flags=re.M)
    plain = turn(path, plain, it, False, seen)
    back = re.sub(r"\x00(\d+)\x00", lambda m: turn_comments(path, quiet[int(m[1])], it), plain)
    return back


MODS, ALL = {}, {}


def main(argv):
    check = argv == ["--check"]
    texts = {}
    for p in files():
        with open(p, encoding="utf-8") as f:
            texts[p] = f.read()
    fields = set()
    count = collections.Counter()
    for p, t in texts.items():
        if p.endswith(".antt"):
            own, its = declared(p, t)
            if not is_answers(p):
                MODS[module(p)] = own
                fields |= {f for f in its if snake(f) != f}
                for old, new in own.items():
                    if old != new:
                        ALL.setdefault(old, new)
                        count[p.split("/")[1]] += 1
    # A name of a section's member stands in its module too.
    bad, written = 0, 0
    new_texts = {}
    for p, t in texts.items():
        if p.endswith(".edit"):
            continue
        seen = collections.defaultdict(set)
        it = table(p, t, MODS, fields)
        new_texts[p] = turned_text(p, t, it, seen)
        for new, olds in sorted(seen.items()):
            if len(olds) > 1 and (p, new) not in LABELS:
                print(f"meet: {p}: {' '.join(sorted(olds))} -> {new}")
                bad += 1
    for p, t in texts.items():
        if not p.endswith(".edit"):
            continue
        target, lines = None, []
        for l in t.split("\n"):
            m = re.match(r"(file|old|new): (.*)$", l)
            if m and m[1] == "file":
                target = os.path.join(p.split("/must-fail/")[0], m[2])
            if m and m[1] != "file" and target in texts:
                it = table(target, texts[target], MODS, fields)
                if target.endswith(".rt"):
                    words = re.sub(r"\b[a-z]\w*[A-Z]\w*\b", lambda w: it[0].get(w[0], w[0]), m[2])
                else:
                    words = turn(target, m[2], it, False, collections.defaultdict(set))
                l = f"{m[1]}: {words}"
            elif l.startswith("#") and target is None:
                l = turn_comments(p, l, ({}, {}, set()))
            lines.append(l)
        new_texts[p] = "\n".join(lines)
    if bad and not check:
        print(f"respell: {bad} words would meet another: nothing was written")
        return 1
    for p, t in new_texts.items():
        if t != texts[p]:
            written += 1
            if not check:
                with open(p, "w", encoding="utf-8") as f:
                    f.write(t)
    print(f"respell: {sum(count.values())} names, {written} files")
    return 0


if __name__ == "__main__":
    raise SystemExit(main(sys.argv[1:]))
