#!/usr/bin/env python3
"""The cases of the program mode_cases, by their lengths:

    python3 tools/mode_cases.py > crates/mode_cases/stdin
"""

WIDTHS = {"mixer": 48, "sha256": 32, "sha512": 64}


def show(*words):
    print(*words)


print("# mode function tag key nonce ad page: all lengths in bytes")
for mode in ("omd", "serial", "counter"):
    for function, w in WIDTHS.items():
        key = 0 if function == "mixer" else 16
        # Pages around the edges of blocks of w and 2w bytes, and the longest.
        for page in (0, 1, w - 1, w, w + 1, 2 * w - 1, 2 * w, 2 * w + 1, 4 * w, 4 * w + 1):
            show(mode, function, 16, key, 12, 0, page)
        # Associated data around the edges of blocks of 2w bytes, and the longest.
        for ad in (1, 2 * w - 1, 2 * w, 2 * w + 1, 4 * w, 4 * w + 5, 1024):
            show(mode, function, 16, key, 12, ad, 3 * w + 7)
        for tag in (4, 12, 31, w):
            show(mode, function, tag, key, 12, 2 * w + 1, 2 * w + 1)
        show(mode, function, 16, key, 31, 2 * w, w)
        show(mode, function, 16, key, 12, 1024, 4096)
        show(mode, function, w, key, 12, 3, 4095)
        if key:
            for other in (0, 10, w):
                show(mode, function, 16, other, 12, 5, w + 1)
    for page in (0, 1, 32, 100):
        show(mode, "trial", 16, 0, 12, 7, page)
