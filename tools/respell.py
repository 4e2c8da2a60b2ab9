#!/usr/bin/env python3
"""Respells the names of this repository's own definitions and lemmas: words are joined by `_`, facts are in camel case.

usage: python3 tools/respell.py        at the top of the repository, once, after the toolchain's port.py

A dash stays where it joins the names of two definitions, as in `length-order`. A lemma with the name of a function ends in
`_lem`. Names are replaced as whole words, in specs/, proofs/ and must-fail/, in the sources, and between backquotes in the
pages of docs/ and the README. Names of functions of src/, strings, inputs and outputs have no dash, and stay.
It stops before it writes anything if two names get one spelling, and names the new words that a crate has already.
"""

import glob
import re
import sys

# Each with its words joined by a dash, as they were.
NAMES = """
Bounds-exist-and-are-unique Come-by Ended-by Ends-have-no-arc-out Front-is-least Fronts-are-joined-arrivals
Growth-adds-the-lowest Growth-attains-the-least In-time Makespan-is-least Marks-are-needed No-earlier
No-schedule-starts-earlier Numbers-fit Order-is-sorted Plan-is-short Plan-is-valid Plan-starts-when-ready
Run-is-shortest Runs-are-joined-summaries Within-factor above-last added-ancestor after-in after-low after-rises
ahead-from-ran all-from-has all-late all-unmap amount-parsed amount-read ancestor-before ancestor-below ancestor-bound
arc-bound arc-fits arc-from arrival-by arrival-fits arrival-from arrival-most arrives-there asked-below before-one-way
before-other best-arrivals best-cases best-joined best-read best-written blank-more blanked-at blanked-leaves
blanked-rest blanked-sound bound-most bounds-agree bounds-more bounds-unique by-arc cap-left cap-right children-stay
climbed-more clock-here clock-there clocks-apart cluster-cases cluster-most delay-text delays-by delays-of delays-text
duration-most earliest-is earliest-more earliest-pass earliest-set earliest-set-is earliest-turn ended-before
ends-at-home ends-by-home ends-late enters-from enters-parts feeds-all feeds-any feeds-any-by feeds-any-from feeds-by
feeds-from finish-low first-end fits-from found-are-bounds found-bound found-bounds found-to from-cases from-high
from-home front-agrees front-high front-most grown-ancestors grown-many growth-ends growth-fits growth-least has-cases
has-members has-none has-order has-placed has-unmap header-delay header-facts home-end home-is home-last home-most
home-pairs home-row home-rows home-step home-timely homes-timely in-cluster in-time in-turn input-fits input-in
input-timely inputs-all inputs-fit is-end is-marked is-next join-numbers joined-in-order kept-none kept-placed
last-later last-reached last-reached-more latest-agrees latest-all latest-found latest-most leads-by leads-complete
leads-sound leads-to leaf-rows leaf-set least-agrees least-attained least-below least-one least-packets least-reach
least-when-shut lesser-contains limited-facts loses-under lowest-all lowest-found made-with makes-run mark-below
mark-task marked-early marked-end marked-falls marked-feeds marked-range marked-stays marked-why marks-below
meaning-of members-are members-below members-cluster members-rise new-step newly-is next-found no-arc no-arrival
none-else none-from-all numeral-utf8 of-diamond of-fast-join of-slow-join one-row open-before open-few open-less
or-none or-zero order-agrees order-rises other-task others-ancestors others-reach over-each over-more over-over
over-self own-task packet-delay packet-facts padded-enough padded-least padded-only pairs-cases pairs-kept
pairs-placed pairs-weaker place-first place-passes placed-agrees plan-complete plan-fed plan-fits plan-follows
plan-in-turn plan-known plan-short plan-valid ran-from-ahead rate-delay rate-facts rate-of reach-agrees reached-before
reached-here read-numbers read-ordered record-at relay-delay relay-facts root-has-none root-is-total row-known
rows-from rows-has rows-homed rows-in-turn rows-to run-agrees run-all run-all-by run-all-within run-from
run-from-agrees run-from-tick run-joined run-kept run-low run-member run-most run-read run-rises run-summaries
run-within run-written same-arrival same-least same-run sample-steps second-in shown-text shut-most shut-stays
span-high span-low starts-late step-answer step-checks step-lowest summary-in summary-out table-delay table-greatest
taken-last taken-size taken-time tally-most tally-none tally-open tally-past tasks-only timed-each timed-has
timed-last timed-pairs timed-soon too-early total-best turn-cases turn-open turn-shut used-by used-none used-still
value-text wins-over with-below with-false with-old with-rises with-self within-size within-time within-time-bounded
work-of work-out
""".split()

# The names that the rule does not respell well. Not named at all, as they stay: finish-append, length-homes, length-kept,
# length-order, length-placed, length-rows, length-timed, map-replicate, mul-max, pairs-append, tally-with.
NOT_BY_RULE = {
    "bounds-exist-and-are-unique": "bounds_exist_and_are_unique_lem",
    "ends-have-no-arc-out": "ends_have_no_arc_out_lem",
    "front-is-least": "front_is_least_lem",
    "fronts-are-joined-arrivals": "fronts_are_joined_arrivals_lem",
    "growth-adds-the-lowest": "growth_adds_the_lowest_lem",
    "growth-attains-the-least": "growth_attains_the_least_lem",
    "makespan-is-least": "makespan_is_least_lem",
    "marks-are-needed": "marks_are_needed_lem",
    "no-schedule-starts-earlier": "no_schedule_starts_earlier_lem",
    "order-is-sorted": "order_is_sorted_lem",
    "plan-is-short": "plan_is_short_lem",
    "plan-is-valid": "plan_is_valid_lem",
    "plan-starts-when-ready": "plan_starts_when_ready_lem",
    "run-is-shortest": "run_is_shortest_lem",
    "runs-are-joined-summaries": "runs_are_joined_summaries_lem",
    "worked-cases": "worked_cases_lem",
    "answers-checked": "Answers-checked",
    "earliest-set-grown": "earliest_set-grown",
    "last-reached-push": "last_reached-push",
    "length-home-rows": "length-home_rows",
    "made-push": "Made-push",
    "pairs-getD": "pairs-get_or",
}

WORD = re.compile(r"[A-Za-z0-9_'\u2032-]+")


def respelled(name):
    if name[0].isupper():
        return "".join(word[0].upper() + word[1:] for word in name.split("-"))
    return name.replace("-", "_")


def in_backquotes(text, swap):
    return re.sub(r"`[^`\n]*`", lambda m: WORD.sub(swap, m.group(0)), text)


def main():
    table = {name: respelled(name) for name in NAMES}
    table.update(NOT_BY_RULE)
    code = [f for kind in ("specs/**/*.antt", "proofs/**/*.antt", "src/**/*.rt", "must-fail/*.edit")
            for f in sorted(glob.glob("crates/*/" + kind, recursive=True))]
    texts = {f: open(f, encoding="utf-8").read() for f in code}
    pages = {f: open(f, encoding="utf-8").read() for f in ["README.md"] + sorted(glob.glob("docs/*.md"))}
    if len(set(table.values())) < len(table):
        sys.exit("two names get one spelling")
    for crate in sorted({f.split("/")[1] for f in code}):
        words = {w for f, t in texts.items() if f.split("/")[1] == crate and f.endswith(".antt") for w in WORD.findall(t)}
        both = sorted(old for old, new in table.items() if old in words and new in words)
        if both:
            print(f"look: {crate} has the new spelling beside the old one: " + ", ".join(f"{o} -> {table[o]}" for o in both))

    def swap(match):
        return table.get(match.group(0), match.group(0))

    changed = 0
    for f, text in list(texts.items()) + list(pages.items()):
        new = in_backquotes(text, swap) if f.endswith(".md") else WORD.sub(swap, text)
        if new != text:
            changed += 1
            with open(f, "w", encoding="utf-8") as out:
                out.write(new)
    print(f"{changed} files respelled")


main()
