#!/usr/bin/env python3
"""Brings this repository's own definitions and lemmas to today's spelling, once, after the kit's port.py:
words in snake case, facts in camel case, a dash only between two names.

    python3 tools/respell.py        at the top of the repository

It changes whole names in the .rt, .antt and .edit files below crates/, and nothing else.
"""

import glob
import re
import sys

# Facts, and lemmas about the fact `Bytes`.
NEW = {
    "Input-fits": "InputFits",
    "May-open": "MayOpen",
    "May-seal": "MaySeal",
    "Too-long": "TooLong",
    "Follows-rule": "FollowsRule",
    "E-of": "E_of",
    "cutBy": "cut_by",
    "getD-from": "get_or_from",
    "length_digits": "length-digits",
    "length-ad-last": "length-ad_last",
    "length-half-fixed": "length-half_fixed",
    "bytes-half-fixed": "Bytes-half_fixed",
    "xor-nil-l": "xor-nil_left",
    "xor-nil-r": "xor-nil_right",
}
for word in ["xor", "digits", "from", "joined", "mixed", "compressed"]:
    NEW["bytes-" + word] = "Bytes-" + word

# Plain words, joined by an underscore.
for name in """
ad-high ad-kinds ad-last ad-offset ad-sum ad-sum-length ad-summed ad-tag ad-tag-length
add-odd add-odd-length address-layers addressed-lawful after-all after-set at-is back-same big-sigma
block-bytes block-long blocks-summed body-length body-long both-joined both-size chain-cut cipher-from
cipher-is cipher-length cipher-more cipher-of cipher-same closed-length compressed-from counter-full256
counter-full512 counter-short256 counter-short512 cut-last cut-more delta-start digits-eight digits-four
digits-less done-last double-four double-next double-two dst-is empty-ad empty-cipher empty-ended
empty-tally ended-last ended-length ended-more ending-length entries-are fed-length feed-of filled-as
filled-full first-length first-offset first-value found-is from-tag from-tag-length front-drop front-is
front-made front-take front-text going-at going-none half-fixed head-length hex-more input-fault key-answer
keyed-answer last-is last-length loaded-all loaded-more loaded-none long-left long-length long-right
mixed-all mixed-byte mixed-from mode-limits narrow-lawful narrow-layers next-by next-is next-length
nonce-high nonce-low nonce-offset ntz-below number-after number-eight number-four offset-is omd-full256
omd-full512 omd-short256 omd-short512 one-page open-fault open-layer open-others open-same
opened-above opens-only or-none other-open other-seal own-layer pad-is pad-none padded-as padded-full
page-above page-below page-blocks page-high page-is page-kinds page-length page-more page-of page-tag
page-tag-length pass-more primes-below put-at put-end rounds-push run-cipher run-tag schedule-more
seal-fault seal-layer seal-others seal-same sealed-above sealed-is sealed-length sealed-same
sealed-twice serial-full256 serial-full512 serial-short256 serial-short512 sha256-mode sha512-mode
shift-all shift-more short-as short-left short-right shut-above shut-other slot-fits small-sigma some-blocks
star-is star-long state-of summed-to summing-at summing-more summing-none tag-answer tag-block
tag-block-length tag-from tag-high tag-length tag-long tag-low tag-part tally-length tally-more times-is
told-all turned-is two-pass under-below v-long value-is words-at words-length written-more xor-front
xor-group xor-more xor-none xor-swap xor-undo xor-whole zeros-front
""".split():
    NEW[name] = name.replace("-", "_")

# A name stands between characters that no name has. `-` and `'` are part of a name; a field follows a dot.
NAME = re.compile(r"[A-Za-z_][A-Za-z0-9_'\-]*[A-Za-z0-9_']|[A-Za-z_]")


def main():
    changed = 0
    for path in sorted(glob.glob("crates/*/**/*", recursive=True)):
        if not path.endswith((".rt", ".antt", ".edit")) or "/out/" in path:
            continue
        with open(path, encoding="utf-8") as f:
            text = f.read()
        lines = []
        for line in text.split("\n"):
            # a comment keeps its words
            code, mark, rest = line, "", ""
            where = re.search(r"(^|\s)(--|//)\s", line)
            if where:
                code, mark, rest = line[: where.start()], line[where.start() : where.end()], line[where.end() :]
            lines.append(NAME.sub(lambda m: NEW.get(m.group(), m.group()), code) + mark + rest)
        new = "\n".join(lines)
        if new != text:
            with open(path, "w", encoding="utf-8") as f:
                f.write(new)
            changed += 1
    print(f"respell: {changed} files changed", file=sys.stderr)


if __name__ == "__main__":
    main()
