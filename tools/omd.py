#!/usr/bin/env python3
"""OMD over the function Mixer, written from docs/MODES.md and without the proved code of OMD.

It prints what the program mode_vectors has to print:

    python3 tools/omd.py > crates/mode_vectors/stdout
"""

WIDTH = 48
FEEDBACK = 0x8D05

PAGES = [0, 1, 47, 48, 49, 95, 96, 97, 143, 200, 480]
ADS = [0, 1, 95, 96, 97, 192, 300]
TAGS = [4, 47, 48]
LONG_PAGE = 3120  # 65 blocks: from the 64th on the offsets take in the feedback number
NONCE = bytes(range(0x10, 0x1C))
LONG_NONCE = bytes(range(0x01, 0x20))


def F(h, m):
    """The function Mixer: M is read backwards."""
    assert len(h) == WIDTH and len(m) == WIDTH
    return bytes((3 * h[i] + 5 * m[WIDTH - 1 - i] + 7 * i + 1) % 256 for i in range(WIDTH))


def xor(*parts):
    """The exclusive or, as long as the shortest part."""
    out = parts[0]
    for part in parts[1:]:
        out = bytes(a ^ b for a, b in zip(out, part))
    return out


def pad(part, n):
    """A short part gets 80 and zeros; a full one stays."""
    if len(part) == n:
        return part
    return part + b"\x80" + bytes(n - len(part) - 1)


def number(t):
    return t.to_bytes(WIDTH, "big")


def double(x):
    shifted = 2 * int.from_bytes(x, "big")
    if shifted >> (8 * WIDTH):
        shifted = (shifted - (1 << (8 * WIDTH))) ^ FEEDBACK
    return number(shifted)


def ntz(i):
    count = 0
    while i % 2 == 0:
        i //= 2
        count += 1
    return count


def cut(part, n):
    return [part[i : i + n] for i in range(0, len(part), n)]


ZEROS = bytes(WIDTH)
STAR = F(ZEROS, ZEROS)
TABLE = [double(double(STAR))]
while len(TABLE) < 8:
    TABLE.append(double(TABLE[-1]))


def offset(start, i):
    """`start` with the table's entries of 1 to i."""
    out = start
    for k in range(1, i + 1):
        out = xor(out, TABLE[ntz(k)])
    return out


def page_part(tau, nonce, page):
    """The ciphertext, and the page's part of the tag."""
    d = F(pad(nonce, WIDTH), ZEROS)
    h = F(offset(d, 1), number(8 * tau))
    blocks = cut(page, WIDTH)
    if not blocks:
        return b"", h
    cipher = b""
    for i, block in enumerate(blocks[:-1], 1):
        cipher += xor(h, block)
        h = F(xor(h, offset(d, i + 1)), block)
    last = blocks[-1]
    cipher += xor(h, last)
    two = double(STAR)
    multiple = two if len(last) == WIDTH else xor(two, STAR)
    return cipher, F(xor(h, offset(d, len(blocks)), multiple), pad(last, WIDTH))


def ad_part(ad):
    """The associated data's part of the tag."""
    total = ZEROS
    for i, block in enumerate(cut(ad, 2 * WIDTH), 1):
        if len(block) == 2 * WIDTH:
            mask = offset(ZEROS, i)
        else:
            mask = xor(offset(ZEROS, i - 1), STAR)
        whole = pad(block, 2 * WIDTH)
        total = xor(total, F(xor(whole[:WIDTH], mask), whole[WIDTH:]))
    return total


def seal(tau, nonce, ad, page):
    cipher, tag = page_part(tau, nonce, page)
    return cipher + xor(tag, ad_part(ad))[:tau]


def show(tau, nonce, ad_len, page_len):
    page = bytes((i * 7 + 3) % 256 for i in range(page_len))
    ad = bytes((i * 11 + 5) % 256 for i in range(ad_len))
    print(f"tag {tau} ad {ad_len} page {page_len}: {seal(tau, nonce, ad, page).hex()}")


def main():
    for page in PAGES:
        for ad in ADS:
            show(16, NONCE, ad, page)
    for tau in TAGS:
        show(tau, NONCE, 97, 97)
    show(16, LONG_NONCE, 97, 97)
    show(16, NONCE, 97, LONG_PAGE)


if __name__ == "__main__":
    main()
