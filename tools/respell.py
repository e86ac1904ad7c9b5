#!/usr/bin/env python3
"""Brings the definitions and lemmas of this repository to the library's spelling, after the kit's port.py: words in
snake case, facts and types in camel case, and in a lemma's name a dash only between two names.

usage: python3 tools/respell.py        at the top of the repository, once

It touches crates/*/src/*.rt, specs/*.antt and proofs/**/*.antt. Names of functions, fields and constants of src/, exported
names, strings and the names that the checker makes are not in its lists.
"""

import os
import re

# '-' becomes '_'
WORDS = """
actions-apart actions-at actions-fit actions-length actions-part actions-told add-actions add-fields add-of
added-text adds-apart adds-first adds-new adds-tagged adds-then-removes adds-then-stamps admits-number
after-digit after-other and-halves and-implied and-never answer-text at1-front at4-front bare-fit barrier-at
barrier-form barrier-told bits-fault block-text both-fixed by-meet byte-spelled byte-text bytes-are bytes-lack
bytes-long bytes-some bytes-text bytes-value carried-length carried-message chomped-none chomped-push
comes-before command-part configuration-number cons-cond count-more d-is decimal-lacks destination-port
digit-ascii digit-back digit-is digit-lacks edge-fault edge-paired edge-use edge-uses edges-within
ends-in-zeros entries-return entry-lacks entry-text ethernet-type example-adds example-series fault-at
fault-read few-actions fields-text first-line first-line-is fixed-fits fixed-or fixed-wildcards flow-mod
flow-mod-form flow-mod-told free-adds free-barriers free-carries free-collecting free-flipping free-installing
free-removes free-stamps from-switch goes-out has-ports header-fault heading-text i-is in-a in-back
in-barriers in-collecting in-flipping in-front in-installing in-port in-port-fault index-spot is-kept
is-length is-linked-with is-of is-port is-type is-unused kind-of kind-text l-fields l-is l-to length-fault
line-back line-put line-text link-fault link-paired link-use link-uses linked-used links-back low-adds
low-made low-removes low-stamps made-carries mark-stays match-part meet-by meet-exact meet-number meet-shared
meet-tests n-fields n-is n-to never-off never-refused no-barrier no-clash number-text number-told of-switch
on-packets open-bit open-wildcards out-port out-port-fault output-text p-is pair-back pair-value pairs-back
pairs-lack pairs-value pdu-is plan-number port-a port-admits port-b port-fault port-made port-numbers port-of
port-small port-sound port-told port-was ports-of prefixes-apart prefixes-meet protocol-a protocol-b
received-text remove-fields remove-of removes-end removes-old removes-tagged removes-then-end reply-form
reply-told row-fault rule-is rule-made rule-number rule-was s-is same-capped same-is same-pdu same-port
same-swap script-text scripts-return self-admits shared-tests site-pattern site-ports site-rule site-rules
small-port smallest-series some-fault some-halves split-found split-none split-place spot-at spot-within
spots-flat stamp-fields stamp-of stamps-new stamps-removes stamps-tagged stamps-then-removes strip-is
strip-text sum-text switch-at switch-fault switch-is switch-of switch-small switch-value switches-fault t-is
tag-made tag-number tag-was text-is to-edge-port together-more told-apart topology-number transport-fault
type-number use-elsewhere use-fresh use-here use-of used-fault version-tag wildcards-of wire-length
with-barriers with-edge with-link with-xid within-front within-numbers write-answer write-number written-front
xid-fits xid-is xid-told
""".split()

# each part begins with a capital, and the dashes go
FACTS = """
Actions-fit Barrier-between Byte-sized Clash-at Clear-before Clear-of Entries-return Fields-fit Has-fields
In-order Line-report Make-before Off-switches On-switches Round-trip Row-fits Scripts-return Unless-refused
""".split()

# where the first rule would give the name of a field or a name that is no more
OTHERS = {
    "all-counting": "All-range_with_len",
    "all-from-nth": "All_from_slice_get",
    "all-nth": "All-slice_get",
    "all_any": "All_any",
    "clear-before-more": "ClearBefore_more",
    "clear-of-more": "ClearOf_more",
    "counting-append": "range_with_len-append",
    "edge-ports": "edge_ports_of",
    "length-flow-mod": "length-flow_mod",
    "new-tag": "new_tag_of",
    "nth-back": "slice_get_back",
    "nth-counting": "slice_get-range_with_len",
    "nth-front": "slice_get_front",
    "nth-map": "slice_get-map",
    "nth-within": "slice_get_within",
    "old-tag": "old_tag_of",
}


def camel(name):
    return "".join(part[0].upper() + part[1:] for part in name.split("-"))


NAMES = {w: w.replace("-", "_") for w in WORDS} | {f: camel(f) for f in FACTS} | OTHERS
# A name begins and ends where no letter of a name follows. After `c.` and `w.` stand names that the checker makes.
PLACE = re.compile(r"(?<![\w'-])(?<!\bc\.)(?<!\bw\.)(?<!\bgoal\.)(" + "|".join(sorted(map(re.escape, NAMES), key=len, reverse=True)) + r")(?![\w'-])")


def respelled(text):
    return PLACE.sub(lambda m: NAMES[m.group(1)], text)


def main():
    for folder, dirs, files in os.walk("crates"):
        dirs[:] = sorted(d for d in dirs if d != "out")
        for name in sorted(files):
            if not name.endswith((".rt", ".antt")):
                continue
            path = os.path.join(folder, name)
            with open(path, encoding="utf-8") as f:
                old = f.read()
            new = respelled(old)
            if new != old:
                with open(path, "w", encoding="utf-8") as f:
                    f.write(new)
                print("respelled " + path)


if __name__ == "__main__":
    main()
