#!/usr/bin/env python3
"""Brings this repository's own names to today's spelling: words of specs/ and proofs/ in snake case.

usage: tools/respell.py        at the top of the repository, once, on what the kit's port.py wrote

port.py respells names of the library, and with them those of the repository that are spelled alike (PORTED below). This script does the others:
`rowsIn` becomes `rows_in`, and `turn-skip` becomes `turn_skip`. Where a lemma's name falls together with a definition's, it gets `_lem` behind it (LEMMAS below for those that port.py had respelled).
Names that begin with a capital, and the four that the library spells with a dash, stay. What a proof folder (proofs/F/) names for itself stays too.
It goes by words, over .antt files, the clauses and comments of .rt files, must-fail edits and pages. Names of src/ are in snake case already.
"""

import os
import re

LIBRARY = {"zero-add", "map-map", "add-zero", "zero-mul"}
WORD = re.compile(r"[^\s(){}.;,@\"«»\[\]\\`:/]+")
DECLARED = re.compile(
    r"^(\s*)((?:pub |abbrev |unfoldable |data |record |open |ruleset |mutual )*)([^\s:(){}|=,\"]+(?: [^\s:(){}|=,\"]+)*) : "
)
# What port.py had respelled, for the files that it does not read.
PORTED = """
above-earlier above-half above-low above-of above-root abs-positive add-a add-assoc add-at add-comm add-half add-most add-r add-turned
after-more after-none all-digits all-in-use all-known all-more all-of allBelow among-none and-assoc and-both and-comm and-left and-right
answerOf any-append any-last any-snoc anyFrom as-before as-many at-1 at-first at-most at-place at-second at-sign at-stored at-test at-top
behind-more below-alike below-at below-by below-half below-more below-next below-none below-of below-root below-two beq-same beside-two
best-none between-cons between-none both-left both-negative both-right both-told both-ways by-first by-value by-word bytesOf cast-t
chosen-is chosen-last clamp-spec close-spec closed-is closing-after cond-no cond-yes copied-all copied-more copied-none count-at count-fits
crossOf div-most done-full done-none each-all each-append each-both each-first each-from each-last each-left each-map each-member each-more
each-none each-of each-or each-part each-right each-set each-take entries-over enum-told every-append every-drop every-map every-more
every-one every-take exact-above field-of fill-spec filled-more filled-none filter-none find-spec finite-number first-holds first-on
first-slot float-same floats-same fold-more found-all found-here found-none from-each from-one from-zero front-length front-long gap-within
gathered-none getD-map getD-part getD-rows give-kept greaterOf grid-mono half-of headOf height-spec held-more held-number high-end in-list
in-place inSlot into-one is-eq is-gt is-lt isEmpty isFloat isOf joined-at keep-snoc kept-near kept-under kindOf laid-same laidOf large-is
layoutOf le-trans' le-val leave-spec left-end left-less length-from length-part length-two lengthOf lessOf load-spec low-end low-part
low-product low-small lt-val made-held mag-of map-each map-snoc maxOf moved-holds moved-store mul-assoc mul-at mul-comm mul-left mul-most
mul-next n-held nan-is narrow-within narrowed-none near-add near-mul near-sub neg-add-cancel neg-unique negative-of new-is new-spec
next-place next-up nextOf no-fields no-front no-more no-nan no-number no-overflow no-slot no-source none-above none-found none-free
none-left none-made none-more none-number none-over none-yet number-at number-is number-of numberOf numbers-more of-four of-inf of-nan
of-negative of-positive of-some of-three of-zero one-kept one-more one-of one-set only-kept open-done open-is open-spec openedOf or-assoc
or-case or-left or-parts or-right otherOf others-apart outAt outIn own-back own-value pair-made pair-row pairAt pairOf part-end part-in
pass-spec passed-none passes-on pastOf place-found placeOf placed-at placed-first placed-past places-same placesOf plus-one plus-times
point-at position-at position-here pred-of push-spec put-full put-spec putOf range-none range-snoc read-back read-is refused-as rest-some
right-distrib ring-long ring-out rises-next root-is root-kept round-up row-is row-kept row-made row-more row-of rowBy rowIn rowOf rows-back
rows-end rows-long rows-made rows-more rows-none rowsBy rowsOf same-drop same-end same-length same-or-not same-sign same-spec scaled-yes
second-holds second-none seen-alike seen-at seen-few set-append-right settle-step shape-row shapeOf shared-kept sharedAt sides-all sign-of
signBit signed-of size-exact size-is size-mono slot-is slot-same slotsOf small-product some-in some-of sorted-more sorted-none split-at
spot-in spotOf spread-row sqrt-negative stands-at startOf step-back store-spec sub-is sub-row sub-same sub-self sum-like sum-of sumOf
swap-ends take-own take-places take-spec taken-as takenOf target-at times-more times-none times-snoc times-zero toBits-odd too-large
top-digits top-to true-of turn-is turn-small turns-more under-stays under-top unit-spec unitFor unitOf up-next up-one value-low value-mid
whole-is whole-of whole-row widen-spec wordAt zero-is zero-number zero-of zero-val zeros-of
"""


# Lemmas that port.py had given the name that a definition gets now, by the place where the lemma is meant.
LEMMAS = {
    "add_at": ("theorem_rows/proofs/HullRows", "theorem_rows/proofs/Places", "theorem_rows/proofs/PlanarRows"),
    "pair_row": ("theorem_rows/proofs/PlanarRows",),
    "top_to": ("row_greatest/proofs/Meaning",),
}


def files(ending):
    for folder, dirs, names in os.walk("crates"):
        dirs[:] = sorted(d for d in dirs if d != "out")
        for name in sorted(names):
            if name.endswith(ending):
                yield os.path.join(folder, name)


def of_a_function(path):
    return os.path.basename(path) in ("Proof.antt", "Answers.antt", "Invariants.antt") and re.search(r"/proofs/.+/", path)


def read(path):
    with open(path, encoding="utf-8", newline="") as it:
        return it.read()


def snake(name):
    return re.sub(r"([a-z0-9])([A-Z])", lambda m: m[1] + "_" + m[2].lower(), name.replace("-", "_"))


def table():
    """From each name to its new spelling."""
    own = set()
    for path in files(".antt"):
        if of_a_function(path):
            continue
        for line in read(path).split("\n"):
            found = None if line.lstrip().startswith("--") else DECLARED.match(line)
            if found:
                own |= set(found[3].split())
    new = {}
    taken = {snake(n) for n in own if "-" not in n} | {"is_nan"}
    for name in sorted(own):
        if not re.match(r"[a-z]", name) or "◌" in name or name in LIBRARY or snake(name) == name:
            continue
        new[name] = snake(name)
        if "-" in name and snake(name) in taken:
            new[name] += "_lem"
    return new


def words(text, new):
    return WORD.sub(lambda m: new.get(m[0], m[0]), text)


def said(text, new):
    """A comment or a page: words in backticks, and elsewhere those in camel case alone, since a dash joins English words too."""
    parts = re.split(r"(`[^`\n]*`)", text)
    camel = {k: v for k, v in new.items() if "-" not in k}
    return "".join(words(p, new if p.startswith("`") else camel) for p in parts)


def code(text, new, mark):
    lines = []
    for line in text.split("\n"):
        at = line.find(mark)
        if mark == "--" and not line.lstrip().startswith("--"):
            at = -1
        lines.append(words(line, new) if at < 0 else words(line[:at], new) + said(line[at:], new))
    return "\n".join(lines)


def main():
    new = table()
    ported = {n: snake(n) for n in PORTED.split()}
    for path in files(".antt"):
        here = {**new, **{n: n + "_lem" for n, places in LEMMAS.items() if any(path == f"crates/{p}.antt" for p in places)}}
        turn(path, lambda t: code(t, here, "--"))
    for path in files(".rt"):
        turn(path, lambda t: code(t, new, "//"))
    both = {**ported, **new}
    for path in files(".edit"):
        turn(path, lambda t: "\n".join(l if l.startswith("file:") else words(l, both) for l in t.split("\n")))
    pages = [os.path.join("docs", p) for p in sorted(os.listdir("docs"))] + ["README.md", "CONTRIBUTING.md"]
    for path in pages:
        if path.endswith(".md") and os.path.exists(path):
            turn(path, lambda t: said(t, both))


def turn(path, how):
    old = read(path)
    text = how(old)
    if text != old:
        with open(path, "w", encoding="utf-8", newline="") as it:
            it.write(text)
        print(path)


if __name__ == "__main__":
    main()
