#!/usr/bin/env python3
"""Spells this repository's own definitions and lemmas as today's Rattle spells names.

    tools/respell_names.py [FOLDER]

It was run once, on the text that the toolchain's port.py left (see docs/PORT.md). Types and
statements are in upper camel case and all other names in snake case; a dash stays where it joins
two names, with the outer call first. Only whole names in .rt and .antt files below crates/ are
touched. A new name that stands somewhere already is printed, since two names may fall together.
"""
import pathlib
import re
import sys

TOKEN = re.compile(r"[^\s(){}\[\].,;:\"«»⌜⌝|λ`]+")

RENAMED = {
    # statements
    "Abc-digest": "AbcDigest",
    "Empty-digest": "EmptyDigest",
    "Feeding-joins": "FeedingJoins",
    "Closing-joins": "ClosingJoins",
    "Worn-is-named": "WornIsNamed",
    # lemmas that would have the name of what they speak of
    "abc-digest": "abc_digest_lem",
    "empty-digest": "empty_digest_lem",
    "worn-is-named": "worn_is_named_lem",
    # lemmas that are named for the left side of their equation
    "altered-length": "length-altered",
    "blank-length": "length-blank",
    "guard-at": "at-guard",
    "guard-length": "length-guard",
    "length-words": "length-words_of",
    "next-take": "next_word-take",
    "overlay-length": "length-overlay",
    "part-getD": "get_or-part",
    "part_length": "length-part",
    "repeated-getD": "get_or-repeated",
    "repeated-length": "length-repeated",
    "table-getD": "get_or-table",
    "table-length": "length-table",
    "window-at": "at-window",
    "window-length": "length-window",
    # the library's word for a test
    "decides-leb": "decides_nat_le",
}

# definitions that were in camel case
CAMEL = """
    abcDigest emptyDigest zeroFilled keyBlock nextWord hexDigit hexPair hexOf isEscaped anyEscaped
    escapedName sumLine
""".split()

# definitions, lemmas, fields and local names whose parts were joined by dashes
DASHED = """
    absorb-block absorb-joined absorb-nothing absorb-part absorb-split all-answer all-cells all-used
    altered-count altered-number altered-number-other altered-second altered-value altered-value-other
    answered-write any-later below-after below-here blank-count blank-ends blank-goes-on blank-number
    blank-second blank-starts blank-value blocks-none by-below by-guard bytes-all bytes-more bytes-none
    cell-answer cell-bytes cell-count cell-image cell-write cells-count-after cells-length cells-long
    cells-room cells-set cells-shaped cells-shown cells-written chain-all chain-none char-more
    char-written chars-begin close-one close-two closing-fed closing-joins code-is-hmac
    complete-absorbs count-in decides-agreement decides-used decodes-none differences-more
    differences-none escape-tells feed-more feeding-fed finish-is fits-number fits-value five-words
    grown-front grown-more grown-none guard-kept guard-place guard-refused guard-settled guard-shaped
    guard-written halfway-more is-cell-image is-strip-image keep-absorbs kept-number kind-in
    kind-number left-answer left-of length-zeros long-key mark-split masked-all masked-more
    masked-twice mid-length name-written new-cells new-cells-are new-strips new-strips-are
    none-from-self number-bytes number-here number-place number-there numbers-length or-none
    overlay-above overlay-below overlay-here overlay-is padding-is padding-same pair-more part-is
    placed-full placed-is places-apart put-more put-none read-bytes repeated-more round-grown
    running-same same-below second-in short-key spent-here split-later split-none steps-more
    strip-bytes strip-count strip-image strip-place strip-value strip-value-newest strip-value-none
    strip-write strips-at strips-count strips-fit strips-length strips-overused strips-room strips-set
    strips-shaped strips-shown strips-sound-after strips-used strips-written two-drops two-pieces
    used-above used-after used-within value-here value-of-new value-place window-after window-place
    window-refused window-settled window-shaped window-wrote words-none words-whole write-answer
    write-cells xor-none zero-byte zero-bytes zeros-placed
""".split()


def snake(camel):
    return re.sub(r"[A-Z]", lambda m: "_" + m.group(0).lower(), camel)


def main(root):
    names = dict(RENAMED)
    names.update((name, snake(name)) for name in CAMEL)
    names.update((name, name.replace("-", "_")) for name in DASHED)
    if len(set(names.values())) != len(names):
        sys.exit("two names fall together")
    files = [p for kind in ("rt", "antt") for p in sorted(root.glob(f"crates/*/**/*.{kind}"))]
    files = [p for p in files if "out" not in p.relative_to(root).parts]
    new = set(names.values())
    for path in files:
        text = path.read_text()
        for name in sorted(new & set(TOKEN.findall(text))):
            print(f"{path.relative_to(root)}: {name} stands here already")
    for path in files:
        text = path.read_text()
        respelled = TOKEN.sub(lambda m: names.get(m.group(0), m.group(0)), text)
        if respelled != text:
            path.write_text(respelled)


if __name__ == "__main__":
    main(pathlib.Path(sys.argv[1] if len(sys.argv) > 1 else "."))
