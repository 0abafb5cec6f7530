#!/usr/bin/env python3
"""Respells this repository's own definitions, lemmas and local names: words in snake case.

Run once, at the top of the checkout, right after the kit's port.py. It goes by a fixed list of names, in
the specs/, proofs/ and src/ of every crate. Names that the library has, goals and steps that Rattle makes
and functions of src/ keep their spelling.
"""

import glob
import re

# Names with a dash: each dash becomes an underscore.
DASHED = """
abandon-goes abandon-of accept-goes accept-held accept-keeps accept-later accept-same accept-says act-leads
act-of after-comma agree-both agree-own all-below all-joined all-tools answer-says at-end at-floor at-k
at-no-controller at-no-envelope at-no-seat at-parent at-seat bag-later bag-more begin-goes begin-keeps
begin-later begin-of begin-with begins-more begins-self begins-stored begun-at begun-handed blank-rows
call-leads call-of carousel-applied carousel-meant carousel-worked cloth-applied cloth-worked com-first
commit-goes commit-handed cond-nil config-number configuration-of configuration-row copies-after copy-answer
deliver-fold deliver-grows deliver-held deliver-keeps deliver-later delivered-to delivers-below eight-places
empty-set empty-table empty-triple entered-seen entry-is epoch-row es-is exchanged-carousel exchanged-length
exchanged-once exchanged-tools fact-refused fields-call fields-cut fields-of fields-step first-lead
first-role first-role-plays first-seen first-stands first-states first-states-length first-told fit-later
floor-inside floor-number fold-append follower-of found-m fresh-or fresh-world goes-leads going-all
going-none h-after h-before hand-below hand-delivers hand-goes handed-begins handed-is handed-le handed-over
handed-to heard-no held-goes held-later held-less held-list held-pushed held-step held-tool holders-below
holds-all holds-all-up home-leader home-member idle-inv idle-leads in-epoch in-range is-beginning is-carousel
is-letter join-keeps join-later join-same keeps-after kept-firsts known-letter known-safe last-i last-j
last-same later-chain lawful-more lawful-new lawful-set leader-of leads-other least-among least-among-each
least-among-le least-each least-le least-told length-replicated length-swapped lesser-if lesser-le
lesser-told line-text long-tables long-too longest-by longest-most longest-of longest-sized longest-stored
lower-goes m'-is m-is made-handed made-lawful made-refused mean-exchanged meant-after meant-by member-lt
new-floor new-lead new-world newconfig-goes newconfig-says newstate-goes no-case no-controller no-entry
no-envelope no-heard no-here no-nil none-missing none-stored none-too none-twice nos-later not-absent
not-both not-granted not-held not-holds not-this not-true nothing-handed nothing-idle nothing-refused
nothing-told nth-append nth-more nth-some nth-tells nth-within of-config of-floor of-service one-number-in
only-first only-le open-epoch open-keeps open-later open-same opened-by opened-by-none opened-refused
opening-known opens-with order-goes order-keeps order-later order-of order-with ordered-as other-bits over-in
over-out part-of-list part-over part-over-apart part-push part-told plays-later pre-begins pre-both pre-q
prefix-length prefix-split probe-goes probed-at promised-held promised-keeps promised-later promised-nos
promised-same propose-leads propose-of propose-refused proposed-with push-keeps push-tells put-committed
put-controller put-entry put-list put-opening put-over put-seat put-set put-speculative reach-least
reach-most read-report refill-more refilled-as refusal-leads refused-goes refused-leads refused-line
report-goes report-of role-follows roll-meant row-after row-answer row-length row-length-le row-length-pair
row-mean run-means said-by said-call said-told same-list same-places same-state says-later seat-at
seats-later seats-set seen-controller seen-floor seen-leads seen-post seen-seat seen-send seen-started
set-without settle-granted settled-at-moment settled-with sheet-after sheet-tally sheet-text shift-add
short-new short-set sits-later sized-stored sound-joined source-lt source-ne spec-first stands-later
start-again start-leads start-view start-world started-by station-step step-to stop-of store-answer
store-granted store-held store-later stored-by stored-handed stored-keeps stretch-of swapped-apart
swapped-below take-append take-tells to-these told-by told-to tool-step twice-step two-hold-all
two-more two-numbers two-numbers-in two-of verb-in verbs-by where-is with-config with-least with-role
without-has without-one worked-lines worked-out worked-rows worked-sheet worked-text xs-is y-is yes-case
yes-heard yes-none ys-is z-is zero-last zero-told
""".split()

# Names that are not in snake case for another reason.
OTHERS = {
    "isOpen": "is_open",
    "notAbove": "not_above",
    "number_of_lem": "number_of",
    "get_d_past": "get_or_past",
    "get_d_part": "get_or_part",
}

# A definition and a function of one module must not fall together: there the definition is imported as another name.
BESIDE = {
    "crates/rows/src/lib.rt": {"row-length": "length_of_row"},
    "crates/sheet/src/line.rt": {"refused-line": "line_of_refusal"},
    "crates/sheet/src/read.rt": {"order-with": "order_in", "verb-in": "verb_said"},
}

# What Rattle makes of a step or goal stands behind one of these.
MADE = r"(?<![\w'.-])(?:goal|c|w|g)\."


def spelled(text, beside):
    """The text with each name spelled as the lists say."""
    names = {name: name.replace("-", "_") for name in DASHED} | OTHERS

    def turn(match):
        name = match[2]
        if match[1] or name not in names:
            return match[0]
        return beside.get(name, names[name])

    text = re.sub(rf"({MADE})?(?<![\w'-])([A-Za-z_][\w'-]*)", turn, text)
    for name, other in beside.items():
        text = re.sub(rf"(?m)^(ghost use [^\n]*[{{ ]){other}(?=[,}}])", rf"\g<1>{names[name]} as {other}", text)
    return text


def main():
    for path in sorted(glob.glob("crates/*/*/**/*", recursive=True)):
        if path.split("/")[2] not in ("specs", "proofs", "src") or not path.endswith((".rt", ".antt")):
            continue
        with open(path, encoding="utf-8", newline="") as file:
            text = file.read()
        new = spelled(text, BESIDE.get(path, {}))
        if new != text:
            with open(path, "w", encoding="utf-8", newline="") as file:
                file.write(new)
            print("respelled", path)


main()
