#!/usr/bin/env python3
"""Brings the repository's own definitions and lemmas to today's spelling: facts and types in camel case, all else in
snake case. Run once, at the top, after the kit's port.py. Names of functions in src/ stay; a second run changes nothing."""

import os
import re

NAMES = """
Bounded-by-cover BoundedByCover
Changed-at ChangedAt
Covering-move IsCoveringMove
Free-in-place-only FreeInPlaceOnly
Is-lowest IsLowest
Made-of MadeOf
Only-spelling OnlySpelling
Ranks-with RanksWith
Ranks-with-choice RanksWithChoice
Ratios-of RatiosOf
Remove-leaves RemoveLeaves
Ruled-out RuledOut
Same-but-place SameButPlace
Set-leaves SetLeaves
So-far SoFar
Total-order TotalOrder
Within-limits WithinLimits
Zero-inside ZeroInside
countBy-all count_by_all
countBy-le count_by_le
"""

# Each dash becomes an underscore.
SNAKE = """
a-figure above-twice alike-answers all-from-kept all-within all-zero among-push among-removed answer-ranks-with-choice
any-two-compare bad-run before-or-at both-ways-not-above bounded-by by-letter by-letter-says chosen-stands cond-list
cond-none cond-one cover-map cover-not-above cover-of covers-map covers-moves crossed-transitive eight-at eight-at-back
eight-back empty-if-none-reaches enough-answer enough-answers enough-exactly-from-cover enough-map enough-upto
fault-more fault-number fields-are fields-behind fields-from first-fault four-at four-at-back four-at-lt four-back
highest-upto holds-other joined-price letter-of listed-by-prices listed-is lower-lowest lower-map lowest-map lowest-of
lowest-of-is mapped-none market-code market-number move-between move-from move-upto moves-push none-chosen none-too-few
not-above not-above-le not-above-map not-above-other not-denied not-here of-nothing once-less once-push once-removed
one-letter other-here other-issue other-later others-alike outside-limits pace-from pace-push passes-beaten passes-short
past-other place-move price-among price-fault price-from price-in price-in-records prices-more prices-of push-from
rank-of-cover ranks-with-lowest ratio-counts ratio-upto ratios-all ratios-count ratios-more record-more remove-denial
remove-in-place removed-first replaced-first row-denial same-made same-slid seen-covering set-behind set-denial
set-in-place sheet-price short-here sound-row sound-run sound-slid sum-of-map upto-itself with-fields yen-upto
"""

TABLE = dict(line.split() for line in NAMES.strip().splitlines())
TABLE.update({name: name.replace("-", "_") for name in SNAKE.split()})
# On pages a name stands between backticks; some were respelled by the kit's script, so the pages lag behind.
PAGES = dict(TABLE, **{"same-rank": "same_rank", "moves-from": "moves_from", "code-of": "code_of"})

WORD = re.compile(r"(?<![\w'-])[A-Za-z][\w']*(?:-[\w']+)+(?![\w'-])|(?<![\w'-])countBy-\w+")
TICKED = re.compile(r"`[^`\n]+`")


def respelled(text, table):
    return WORD.sub(lambda m: table.get(m.group(), m.group()), text)


def rewrite(path, turn):
    with open(path, encoding="utf-8") as f:
        old = f.read()
    new = turn(old)
    if new != old:
        with open(path, "w", encoding="utf-8") as f:
            f.write(new)
        print(path)


def main():
    for folder, folders, files in os.walk("crates"):
        folders[:] = sorted(d for d in folders if d != "out")
        for name in sorted(files):
            if name.endswith((".rt", ".antt", ".edit")):
                rewrite(os.path.join(folder, name), lambda text: respelled(text, TABLE))
    # PORT.md names what was, too.
    pages = ["README.md"] + ["docs/" + name for name in sorted(os.listdir("docs")) if name.endswith(".md") and name != "PORT.md"]
    for page in pages:
        rewrite(page, lambda text: TICKED.sub(lambda m: respelled(m.group(), PAGES), text))


if __name__ == "__main__":
    main()
