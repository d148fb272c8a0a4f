#!/usr/bin/env python3
"""Respells this repository's own definitions and lemmas: words in snake case, types in camel case.

usage: tools/respell.py [FOLDER]    rewrites below FOLDER (this folder) the code of *.rt, *.antt and *.edit, but no strings,
and in comments and in *.md the names in back quotes

Run it once, after the kit's own script. A second run changes no code; in *.md it would turn old names that are told as such.
"""

import os
import re
import sys

NAMES = """
    Channel-fits Ends-freely Equal-totals-mean-no-fault Equal-totals-mean-sound First-free From-raw From-text Good-gap Law-of-loading Law-of-reading
    Pieces-read Read-back Rounds-up Says-plan Sound-means-no-fault Stays-below Task-fits Token-refused Too-small Worked-cases add-up all-counted
    alone-between alone-count alone-past alone-within also-ok and-swap and-true apart-totals at-least-itself awaited-held before-from begun-channel
    begun-task begun-totals begun-valid built-totals built-words bus-apart bus-claim bus-claim-at bus-claims bus-claims-are bus-claims-length
    bus-clear bus-is bus-length-le bus-own bus-ready bus-within bytes-again bytes-for bytes-more bytes-of-word came-by came-end came-next came-within
    channel-at channel-count channel-record channel-table claim-at clear-from clear-le clear-never clear-of-bus clear-stay clear-transfer-is
    clear-transfer-past clear-undisturbed cleared-fits closed-file closed-more closer-ends closer-from closer-own closer-starts code-kind core-in
    cores-apart counted-all counted-append counted-cut counted-le counted-since cramped-totals cut-exec cut-transfer cycles-high cycles-low cycles-of
    digit-again digit-below digit-inside digit-of divided-up empty-execs empty-file empty-fits empty-slot empty-transfers end-from entries-le
    entries-long entry-exec entry-transfer entry-within equal-sound equal-totals-mean-no-fault equal-totals-mean-sound exec-claim exec-claim-at
    exec-claimed exec-claims exec-claims-are exec-claims-length exec-clear exec-ends exec-fits exec-is exec-length exec-length-le exec-lengths
    exec-own exec-past exec-record exec-records exec-slot-empty exec-slot-end exec-slot-length exec-slot-seat exec-slot-small exec-within exec-words
    exec-written execs-as execs-long field-set-past field-small fields-of file-of first-bound first-start following-ok following-written free-yet
    from-before from-to front-of-set full-slot gap-text given-parts going-fault going-first going-roomy grown-by grown-by-sound grown-sound
    has-its-seat has-means has-not has-seat has-start hasty-totals hex-of holds-in if-channel if-task in-below in-counting in-entries in-inputs
    in-outputs in-own in-transfers is-end is-first is-placed is-ready is-transfer joined-none joined-one kind-code kind-of last-bound law-of-loading
    law-of-reading layer-of lead-execs lead-transfers left-first left-more left-none length-bytes length-if-known length-low length-of load-by
    load-on load-whole loaded-fits loaded-is-written loaded-of make-clear mapped-from max-one max-swap may-place may-withdraw meaning-of min-one
    min-swap new-totals next-by next-checked next-cut next-ok next-passed next-roomy next-taken next-task next-value no-blank no-channel no-claim
    no-fault-sound no-hash no-machine no-regions no-task no-token no-transfer of-all of-below of-counting of-entries of-inputs of-kept of-outputs
    of-own of-two-left of-two-right one-bus one-core one-region opened-sound opener-own opener-starts opening-by opening-ok opening-written or-false
    others-mean parted-all parted-more parts-sound pass-channels pass-first pass-moves pass-stays pass-tasks pass-whole passes-walk pick-swap
    picked-append picked-bound picked-from picked-kept piece-text piece-words pieces-read place-below place-one placed-fits plain-small plan-in
    plan-of plan-rules push-channel push-task pushed-field put-fits reaching-first reaching-more reaching-none read-is-written read-on read-plan
    read-regions read-sheet read-side ready-from record-at record-channel record-task refusal-of region-count region-in region-of regions-apart
    rest-between rest-none rest-word roomy-by roomy-enough rounds-up run-append run-back run-bad run-behind run-gap run-last run-line run-next
    run-note run-piece run-pieces run-remark run-token run-turn run-word same-field same-sheet same-stands saying-by saying-opener saying-sayable
    saying-words seat-from seat-in seat-of seat-out seat-starts seated-at seated-below set-either shed-append shed-line shed-next shed-token
    shed-turn sheet-in sheet-layer sheet-of sheet-read sheet-records sizes-ok sizes-pass sizes-within slot-load slot-time small-entry sound-entry
    sound-equal sound-means-no-fault sound-no-fault stay-claim stay-claim-at stay-claims stay-claims-length stay-clear stay-is stay-low stay-order
    stay-own stay-small stay-small-at stay-within stays-apart stays-away stays-le stays-more stays-sum stays-uncut step-digit step-ends step-first
    step-full step-next step-none step-sound stretch-counted stretch-cut sums-le sums-map sums-parts tail-length taken-append taken-fields taken-has
    taken-less taken-means taken-ok taken-opening taken-shorter task-at task-count task-in task-record task-table tasks-long the-stay three-fields
    timetable-rules token-parts token-refused too-early transfer-claimed transfer-ends transfer-fits transfer-holds transfer-length transfer-lengths
    transfer-past transfer-read transfer-record transfer-records transfer-slot-empty transfer-slot-end transfer-slot-length transfer-slot-small
    transfer-slot-start transfer-start transfer-takes transfer-words transfer-write transfer-written transfers-as transfers-long two-assoc two-swap
    two-task two-task-words uncut-exec uncut-transfer undisturbed-clear unless-end unless-refused upto-none upto-set valid-at value-again value-first
    values-long waiting-first waiting-more walk-came walk-fault width-by with-exec with-transfer word-again words-again words-by-four words-in
    words-in-text words-meaning words-within write-below write-side written-by written-is-loaded written-is-read written-sheet written-taken
    zero-less
""".split()

TOKEN = re.compile(r"[A-Za-z_][A-Za-z0-9_']*(?:-[A-Za-z0-9_']+)+")


def respelled(name):
    if name[0].isupper():
        return "".join(part[0].upper() + part[1:] for part in name.split("-"))
    return name.replace("-", "_")


TABLE = {name: respelled(name) for name in NAMES}


def turn(text):
    return TOKEN.sub(lambda m: TABLE.get(m.group(0), m.group(0)), text)


def turn_quoted(text):
    return re.sub(r"`[^`\n]*`", lambda m: turn(m.group(0)), text)


def turned(path, text):
    """Code is turned; of a comment, names in back quotes alone; strings stay, those over several lines too."""
    if path.endswith(".md"):
        return turn_quoted(text)
    comment = r"(?m:(?:^|(?<=\s))--(?=\s|$).*)" if path.endswith(".antt") else r"//[^\n]*"
    out, at = "", 0
    for m in re.finditer(r'"(?:[^"\\]|\\.)*"|' + comment, text, re.DOTALL if path.endswith(".rt") else 0):
        found = m.group(0)
        out += turn(text[at : m.start()]) + (found if found.startswith('"') else turn_quoted(found))
        at = m.end()
    return out + turn(text[at:])


def main(root):
    for folder, dirs, files in os.walk(root):
        dirs[:] = [d for d in dirs if d not in (".git", "out", "target")]
        for name in files:
            path = os.path.join(folder, name)
            if not name.endswith((".rt", ".antt", ".md", ".edit")):
                continue
            with open(path, encoding="utf-8") as f:
                old = f.read()
            new = turned(path, old)
            if new != old:
                with open(path, "w", encoding="utf-8") as f:
                    f.write(new)


if __name__ == "__main__":
    main(sys.argv[1] if len(sys.argv) > 1 else ".")
