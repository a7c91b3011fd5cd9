#!/usr/bin/env python3
"""Spells this repository's own definitions and lemmas in snake case, in its sources, proofs, edits and pages.

usage: tools/spell.py [--check | --last] [FOLDER]

A name is one's own where a file of crates/*/specs or crates/*/proofs declares it. Types and modules keep their capitals, and so does every name of Rust.
A name that a file imports from a library stays in that file, and so does a name behind a dot in a function's own proof folder, but for the fields of
records and the names of specs. Two names that would fall together, or that would meet a word of a file that has them, are printed and end the run;
RENAMED gives such names another spelling. LAST has constructors, a record, a binder and fields that the rule does not see or does not name well; --last turns
these alone. --check writes nothing.
"""

import os
import re
import sys

WORD = re.compile(r'[^\s(){}.;,@"«»\[\]|`]+')
DECLARED = re.compile(r"(?m)^( *)((?:(?:unfoldable|abbrev|pub|constructor) )*)(?:\| )?([^\s:(){}.,;]+) :(?=\s)")
OPENED = re.compile(r"(?m)^ *(?:pub )?(?:data|record) (\S+)")
USE = re.compile(r"\buse ([^\s;{]+?)\.?\{([^}]*)\}")
GOAL = re.compile(r"(?m)^(?:pub )?(\S+) : (?:tie|goal)\.")
# Names that had their new spelling before this script ran, but for edits and pages.
TURNED = """
above-other add-at add-done add-most add-reads add-wide add-words after-one after-stop all-asked all-edges all-from all-left all-lines all-listed
all-made all-same all-slots all-small all-snoc all-there all-true all-weaker allBelow an-item and-both answerOf any-false any-met any-none any-seen
any-snoc any-some as-many as-read at-most-one at-place atRow before-last below-none below-true blockAt blockLines blockOf blocks-more body-reads
by-bool by-bytes by-call by-copy by-end by-field by-number by-parts by-result by-value by-word bytesOf call-fits call-passes callT capOf carried-later
cast-same cast-t clean-after clean-step clear-spec comes-back copy-at copy-goes copy-moves copyOf count-none count-set count-spec count-word countOf
counted-none cutOf decode-is digit-low digits-more digits-of draws-by drop-more each-cap end-is endOf endWord ends-open ends-stuck enum-told
every-append every-byte every-drop every-get every-map every-set every-take every-way few-on field-fits field-in field-is field-next field-stored
fieldAt fieldOf fields-in fields-renamed filled-more finish-spec first-count first-ends first-some first-word firstLines firstOf fits-more formOf
frame-here frame-is frame-pushed frame-small frameAt from-at from-front from-start front-by front-fits front-long front-reads giveT given-counted
given-inside givenOf gives-fits gives-less gives-self goes-before goes-on good-start good-turn grows-then has-ended has-room headOf held-by holdsOf
in-order in-place in-rest in-rows in-table inTurn inputs-are is-block is-made is-number isForeign isLocal isNumber itemsOf kept-at keptAt kind-ok
kindAt knows-same last-byte last-line last-none lastOf lasts-to leave-spec leaves-all left-in line-at line-first line-kept line-made lineAt lineOf
lines-are linesOf listed-more load-spec low-part low-up made-found made-held made-none made-some made-up main-spec make-spec makes-none makes-one
map-same mark-spec may-hold-spec met-next movesOf mul-at mul-low mul-wide mul-words named-none named-some named-start names-at new-items new-line
new-told next-place no-both no-buffer no-bytes no-frames no-item no-line no-lines no-longer no-more no-number no-or no-other no-program no-race
no-table no-text no-word noBlock noField none-above none-before none-first none-inside none-last none-left none-named none-yet not-imm not-local
not-made not-there number-fits number-is number-same numberOf numbers-fit of-none on-line one-at-most one-form one-less one-line one-more one-none
one-written operand-read operand-short operand-small operandWord or-left or-right or-turned orElse other-arm over-none part-moved parts-same past-all
past-more past-one past-two place-is placeOf plain-quiet plain-then programOf put-full put-other put-self ran-on reach-few read-again read-all
read-behind read-done read-is read-length read-more read-none read-one read-spec readOn readingOf reads-all reads-on readsOf record-is refusal-is
refused-none release-spec restLines result-ok resultOf return-fits row-ends row-next row-same rowOf rows-long rows-right run-spec runFrom same-after
same-head same-inputs same-kind same-length same-next same-number same-or-not same-rest same-step same-tables same-text sameWords says-of says-then
second-is set-cases set-past set-self short-row sim-check sim-put sim-then slot-counted slot-next slot-read slot-seen slotAt slotOf slots-next slotsOf
small-line soFar some-item some-more span-fits splice-all start-fits startOf step-after step-field step-fits step-other stops-foreign store-spec
stores-both sub-at table-is tableOf take-next take-past target-is target-left textOf then-ok times-snoc to-end to-front to-same told-line too-few
too-long too-short touches-none turn-is turn-one turn-spec turnOf turns-fit turnsT two-fields upTo value-in value-spec value-tells valueOf values-same
waits-one walk-at walked-once walked-one walked-to whole-says whole-word width-spec withNumber word-at word-below word-fits word-set wordAt wordOf
words-are words-small wordsOf write-done write-spec written-back written-is written-out zero-more zero-word
""".split()
# Lemmas and fields that would get the name of a definition beside them.
RENAMED = {"frame-at": "frame_spliced", "number-of": "number_at", "operand-word": "operand_word_lem", "place-of": "place_among", "text-of": "text_of_lem"}
# Names in snake case already that give way to a definition: a file, or the end of a folder's name, the word, and what stands for it.
FIRST = [
    ("crates/checks/proofs/ObjectChecks.antt", r"(?<![\w.-])is_imm(?![\w-])", "imm"),
    ("crates/grammar/proofs/Fronts.antt", r"(?<![\w.-])front_by(?![\w-])", "front_by_lem"),
    ("crates/rules/proofs/Printing.antt", r"(?<![\w.-])after_one(?![\w-])", "after_one_lem"),
    ("crates/rules/proofs/", r"(?<=\.)in_place(?![\w-])|(?<![\w.-])in_place(?= [=:] )", "is_in_place"),
    ("crates/reader/proofs/Scan.antt", r"(?<=\.)in_place(?![\w-])", "is_in_place"),
    ("crates/theorems/proofs/", r"(?<=\.)in_place(?![\w-])|(?<![\w.-])in_place(?= [=:] )", "is_in_place"),
]
# What is turned at the end: the beginning of a path, a word, and what stands for it. A word in LAST_OF is of one crate or file alone.
LAST = {
    "openEnd": "open_end",
    "oneNumber": "one_number",
    "oneOperand": "one_operand",
    "oneCap": "one_cap",
    "manyNumbers": "many_numbers",
    "manyOperands": "many_operands",
    "Done-with": "DoneWith",
    "isMet": "is_met",
    "visibleByte": "visible_byte",
    "program_words_lem": "program_words_are",
    "state_words_lem": "state_words_are",
}
LAST_OF = [
    ("crates/rules/specs/Turn.antt", "permit : (is_foreign isAlias isOther : Bool)", "permit : (is_foreign is_alias is_other : Bool)"),
    ("crates/reader/", "line_count_lem", "line_count_is"),
    ("crates/listing/proofs/LineTexts.antt", "pub open_end :", "pub open_end_lem :"),
    ("crates/listing/proofs/LineTexts.antt", "open_end = line_is", "open_end_lem = line_is"),
    ("crates/listing/proofs/answers/put_answer/", "open_end", "open_end_lem"),
    ("crates/stripping/specs/StrippedTexts.antt", "no_script_lem", "no_script_again"),
    ("crates/stripping/proofs/", "too_long, no_script_lem, Prints", "too_long, no_script_again, Prints"),
    ("crates/stripping/proofs/", "(no_script_lem none.1)", "(no_script_again none.1)"),
    ("crates/", "no_script_lem", "no_script_answers"),
    ("crates/theorems/", "put_by_lem", "put_by_waits"),
]


def at_last(text, path):
    for old, new in LAST.items():
        text = re.sub(r"(?<![\w'-])" + old + r"(?![\w'-])", new, text)
    for where, old, new in LAST_OF:
        if where in path:
            text = re.sub(r"(?<![\w'-])" + re.escape(old) + r"(?![\w'-])", new, text)
    return text


def in_snake_case(name):
    words = re.sub(r"(?<=[a-z0-9'])[A-Z]+(?=[A-Z][a-z])|(?<=[a-z0-9'])[A-Z]", lambda m: "_" + m[0].lower(), name)
    return words.replace("-", "_")


def texts(top, endings):
    for folder, dirs, files in os.walk(top):
        dirs[:] = sorted(d for d in dirs if d not in ("out", "target", ".git", "tools", "pictures"))
        for name in sorted(files):
            if name.endswith(endings):
                yield os.path.join(folder, name)


def read(path):
    with open(path, encoding="utf-8") as f:
        return f.read()


def bare(text):
    """The text without comments and strings."""
    return re.sub(r'"(?:[^"\\\n]|\\.)*"|(?<![^\s(){}.;,@"«»])--[^\n]*', "", text)


def in_function(path):
    parts = path.split(os.sep)
    return "proofs" in parts and parts.index("proofs") < len(parts) - 2


def own(root):
    names, behind = set(), set()
    for path in texts(os.path.join(root, "crates"), (".antt",)):
        text = bare(read(path))
        goals = {m[1] for m in GOAL.finditer(text)}
        for m in DECLARED.finditer(text):
            name = m[3]
            if name in goals or name.endswith("-spec") and in_function(path):
                continue
            if re.match(r"[a-z]", name) and ("-" in name or re.search("[A-Z]", name)):
                names.add(name)
                if not in_function(path):
                    behind.add(name)
    return names, behind


def library_words(text):
    words = set()
    for m in USE.finditer(text):
        parts = m[1].split(".")
        if parts[0] in ("mathlib", "native", "lib", "borrow", "Prim", "denote", "logic", "specs") or parts[:2] == ["Rattle", "std"] or parts[:2] == ["Rattle", "core"]:
            words |= {w.strip().split(" as ")[0] for w in m[2].split(",")}
    return words


def turned(text, path, names, behind, met):
    away = library_words(text) if path.endswith((".antt", ".rt")) else set()
    pages = path.endswith((".md", ".1"))
    inner = in_function(path) and path.endswith(".antt")

    def word(m):
        name = m[0]
        if name not in names or name in away:
            return name
        if m.start() and m.string[m.start() - 1] == ".":
            if inner and name not in behind or inner and "-" in name:
                return name
        met.add(name)
        return names[name]

    if path.endswith(".antt"):
        for where, old, new in FIRST:
            if where in path:
                text = re.sub(old, new, text)
    if not path.endswith((".antt", ".rt")):
        names = names | {n: in_snake_case(n) for n in TURNED}
    if pages:
        return re.sub(r"`[^`\n]+`", lambda m: WORD.sub(word, m[0]), text)
    if path.endswith(".rt"):
        return re.sub(r"(?s)\bghost use [^;]*;|\b(?:requires|ensures)\s*\*?\s*\w*\s*\{[^\n]*|\bghost \w+[^\n]*", lambda m: WORD.sub(word, m[0]), text)
    return WORD.sub(word, text)


def pages_too(root):
    crates = texts(os.path.join(root, "crates"), (".antt", ".rt", ".edit", ".md"))
    docs = [path for path in texts(os.path.join(root, "docs"), (".md",)) if not path.endswith("PORT.md")]
    return [*crates, *docs, os.path.join(root, "README.md")]


def last(root):
    for path in pages_too(root):
        text = read(path)
        out = at_last(text, path)
        if out != text:
            print(os.path.relpath(path, root))
            with open(path, "w", encoding="utf-8") as f:
                f.write(out)
    return 0


def main(argv):
    check = "--check" in argv
    roots = [a for a in argv if a[:2] != "--"]
    root = roots[0] if roots else os.path.dirname(os.path.dirname(os.path.realpath(__file__)))
    if "--last" in argv:
        return last(root)
    found, behind = own(root)
    names = {n: RENAMED.get(n, in_snake_case(n)) for n in found}
    bad = 0
    new = {}
    # A lemma that would have its definition's name.
    for old in found:
        if "-" in old and old not in RENAMED and any(names[o] == names[old] for o in found if o != old):
            names[old] += "_lem"
    for old in sorted(names):
        if names[old] in new:
            print(f"fall together: {old} and {new[names[old]]} as {names[old]}")
            bad += 1
        new[names[old]] = old
    changed = []
    for path in pages_too(root):
        text = read(path)
        met = set()
        out = at_last(turned(text, path, names, behind, met), path)
        if out == text:
            continue
        if path.endswith(".antt"):
            words = set(WORD.findall(re.sub(r"\buse [^\s;{]+|\.[\w-]+", "", bare(turned(text, path, {}, set(), set())))))
            for old in sorted(met):
                if names[old] in words:
                    print(f"meets: {os.path.relpath(path, root)}: {old} as {names[old]}")
                    bad += 1
        changed.append((path, out))
    print(f"{len(names)} names, {len(changed)} files, {bad} to settle")
    if bad or check:
        return 1 if bad else 0
    for path, out in changed:
        with open(path, "w", encoding="utf-8") as f:
            f.write(out)
    return 0


if __name__ == "__main__":
    raise SystemExit(main(sys.argv[1:]))
