#!/usr/bin/env python3
"""The modes OMD, serial and counter over four compression functions.

Written from MODES.md alone, to be compared with another implementation.

    modes.py [--damage] < cases     one body a line
    modes.py --examples             the worked examples of MODES.md

A case is a line `MODE FUNCTION TAG KEY NONCE AD PAGE`; see read_case.
"""

import sys

# ---------------------------------------------------------------- bytes


def xor(*parts):
    """The parts XORed; the shortest one gives the length (zip stops there)."""
    result = parts[0]
    for part in parts[1:]:
        result = bytes(a ^ b for a, b in zip(result, part))
    return result


def cut(text, size):
    """Blocks of `size` bytes, the last one perhaps short; none for no bytes."""
    return [text[at:at + size] for at in range(0, len(text), size)]


def pad(part, size):
    """A full part stays as it is: it never gets an extra block."""
    if len(part) == size:
        return part
    return part + b"\x80" + bytes(size - len(part) - 1)


def halves(block):
    middle = len(block) // 2
    return block[:middle], block[middle:]


def equal_in_all_bytes(x, y):
    """Looks at every byte, so that the time does not tell where they differ."""
    difference = len(x) ^ len(y)
    for a, b in zip(x, y):
        difference |= a ^ b
    return difference == 0


# ------------------------------------------- the compression functions F


class Trial:
    width, feedback = 32, 0x0425

    def __call__(self, h, m):
        return xor(h, m)


class Mixer:
    width, feedback = 48, 0x8D05

    def __call__(self, h, m):
        return bytes((3 * h[i] + 5 * m[47 - i] + 7 * i + 1) % 256
                     for i in range(48))


def first_primes(count):
    primes = []
    candidate = 2
    while len(primes) < count:
        if all(candidate % p for p in primes):
            primes.append(candidate)
        candidate += 1
    return primes


def cube_root(number):
    """The largest r whose cube is at most `number`, bit by bit: no rounding."""
    root = 0
    for bit in reversed(range(number.bit_length() // 3 + 1)):
        if (root | 1 << bit) ** 3 <= number:
            root |= 1 << bit
    return root


class ShaCompression:
    """The compression of FIPS 180-4 at one of its two word sizes."""

    def __init__(self, bits, rounds, big0, big1, small0, small1):
        self.bits, self.rounds = bits, rounds
        self.word_bytes, self.mask = bits // 8, (1 << bits) - 1
        self.big0, self.big1 = big0, big1
        self.small0, self.small1 = small0, small1
        self.constants = [cube_root(p << 3 * bits) & self.mask
                          for p in first_primes(rounds)]

    def words(self, text):
        return [int.from_bytes(w, "big") for w in cut(text, self.word_bytes)]

    def rotr(self, x, by):
        return (x >> by | x << self.bits - by) & self.mask

    def big_sigma(self, x, turns):
        a, b, c = turns
        return self.rotr(x, a) ^ self.rotr(x, b) ^ self.rotr(x, c)

    def small_sigma(self, x, turns):
        a, b, shift = turns
        return self.rotr(x, a) ^ self.rotr(x, b) ^ x >> shift

    def __call__(self, chaining, block):
        mask = self.mask
        w = self.words(block)
        for t in range(16, self.rounds):
            w.append((self.small_sigma(w[t - 2], self.small1) + w[t - 7]
                      + self.small_sigma(w[t - 15], self.small0) + w[t - 16])
                     & mask)
        old = self.words(chaining)
        a, b, c, d, e, f, g, h = old
        for t in range(self.rounds):
            choice = (e & f) ^ (~e & mask & g)
            majority = (a & b) ^ (a & c) ^ (b & c)
            t1 = (h + self.big_sigma(e, self.big1) + choice
                  + self.constants[t] + w[t])
            t2 = self.big_sigma(a, self.big0) + majority
            h, g, f, e = g, f, e, (d + t1) & mask
            d, c, b, a = c, b, a, (t1 + t2) & mask
        new = (a, b, c, d, e, f, g, h)
        return b"".join(((x + y) & mask).to_bytes(self.word_bytes, "big")
                        for x, y in zip(new, old))


SHA256 = ShaCompression(32, 64, (2, 13, 22), (6, 11, 25), (7, 18, 3), (17, 19, 10))
SHA512 = ShaCompression(64, 80, (28, 34, 39), (14, 18, 41), (1, 8, 7), (19, 61, 6))


class KeyedSha:
    """F(H, M): the block is the key, zeros to the width, and M."""

    def __init__(self, compression, feedback, key):
        self.compression, self.feedback = compression, feedback
        self.width = 8 * compression.word_bytes
        # The built-in key is all zeros, so no key fills up to the same bytes.
        self.filled_key = key + bytes(self.width - len(key))

    def __call__(self, h, m):
        return self.compression(h, self.filled_key + m)


def make_function(name, key=b""):
    if name == "sha256":
        return KeyedSha(SHA256, 0x0425, key)
    if name == "sha512":
        return KeyedSha(SHA512, 0x0125, key)
    return {"trial": Trial, "mixer": Mixer}[name]()


# ---------------------------------------------------------------- masks


def double(x, feedback):
    bits = 8 * len(x)
    number = int.from_bytes(x, "big") << 1
    if number >> bits:
        # The top bit fell off: take it away and fold it into the last 16 bits.
        number ^= 1 << bits | feedback
    return number.to_bytes(len(x), "big")


def trailing_zeros(i):
    return (i & -i).bit_length() - 1


class Masks:
    """L*, its small multiples and the offset table of one function."""

    def __init__(self, function, start_doublings):
        """start_doublings: 2 for L[0] = 4·L* (OMD), 3 for L[0] = 8·L*."""
        self.zeros = bytes(function.width)
        self.star = function(self.zeros, self.zeros)
        self.two = double(self.star, function.feedback)
        self.four = double(self.two, function.feedback)
        entry = self.star
        for _ in range(start_doublings):
            entry = double(entry, function.feedback)
        self.table = [entry]
        for _ in range(7):      # the longest page has 128 blocks: entries 0 to 7
            self.table.append(double(self.table[-1], function.feedback))

    def multiple(self, j):
        """j·L* for j from 0 to 7."""
        result = self.zeros
        for bit, value in ((4, self.four), (2, self.two), (1, self.star)):
            if j & bit:
                result = xor(result, value)
        return result

    def offsets(self, start, count):
        """Offsets 0 to count: the start, then each with its table entry in."""
        offsets = [start]
        for i in range(1, count + 1):
            offsets.append(xor(offsets[-1], self.table[trailing_zeros(i)]))
        return offsets


# ---------------------------------------------------------------- modes


class Mode:
    """What the modes share: a function, a tag length, masks, D(i) and ⟨8τ⟩."""

    start_doublings = None

    def __init__(self, function, tag_length=16):
        self.f, self.width, self.tag_length = function, function.width, tag_length
        self.masks = Masks(function, self.start_doublings)
        self.tag_bits = (8 * tag_length).to_bytes(self.width, "big")

    def nonce_offsets(self, nonce, count):
        start = self.f(pad(nonce, self.width), self.masks.zeros)
        return self.masks.offsets(start, count)

    def answer(self, is_equal, page):
        """Opening's answer and output; a refused page leaves only zeros."""
        return (True, page) if is_equal else (False, bytes(len(page)))


class Omd(Mode):
    start_doublings = 2

    def first_keystream(self, d):
        return self.f(d[1], self.tag_bits)

    def page_part(self, h, d, blocks):
        """Te; h is the last keystream block, H1 for an empty page."""
        if not blocks:
            return h
        last = blocks[-1]
        is_full = len(last) == self.width
        kind = self.masks.multiple(2 if is_full else 3)
        return self.f(xor(h, d[len(blocks)], kind), pad(last, self.width))

    def data_part(self, data):
        """Ta; these offsets start from zeros, not from the nonce."""
        blocks = cut(data, 2 * self.width)
        b = self.masks.offsets(self.masks.zeros, len(blocks))
        total = self.masks.zeros
        for i, block in enumerate(blocks, 1):
            if len(block) == 2 * self.width:
                offset = b[i]
            else:               # a short block stays at the offset before it
                offset = xor(b[i - 1], self.masks.star)
            left, right = halves(pad(block, 2 * self.width))
            total = xor(total, self.f(xor(left, offset), right))
        return total

    def tag(self, h, d, blocks, data):
        return xor(self.page_part(h, d, blocks),
                   self.data_part(data))[:self.tag_length]

    def seal(self, nonce, data, page):
        blocks = cut(page, self.width)
        # An empty page still needs D(1) for H1, which is its Te.
        d = self.nonce_offsets(nonce, max(1, len(blocks)))
        h = self.first_keystream(d)
        ciphertext = b""
        for i, block in enumerate(blocks, 1):
            if i > 1:
                h = self.f(xor(h, d[i]), blocks[i - 2])
            ciphertext += xor(h, block)
        return ciphertext + self.tag(h, d, blocks, data)

    def open(self, nonce, data, body):
        """(released, output) by the six steps of the document."""
        length = len(body) - self.tag_length
        ciphertext, tag = body[:length], body[length:]
        cipher_blocks = cut(ciphertext, self.width)
        d = self.nonce_offsets(nonce, len(cipher_blocks) + 1)
        h = self.first_keystream(d)
        page_blocks = []
        for i, block in enumerate(cipher_blocks, 1):
            page_blocks.append(xor(h, block))
            if i < len(cipher_blocks):
                h = self.f(xor(h, d[i + 1]), page_blocks[-1])
        wanted = self.tag(h, d, page_blocks, data)
        return self.answer(equal_in_all_bytes(tag, wanted), b"".join(page_blocks))


# The kinds of blocks in serial and counter.
PAGE, DATA, LAST_PAGE, LAST_DATA, SHORT_PAGE, SHORT_DATA, KEYSTREAM = range(7)


class TagFirst(Mode):
    """Serial and counter; they differ in the keystream behind H1 only."""

    start_doublings = 3
    is_serial = None

    def mask(self, d, i, kind):
        return xor(d[i], self.masks.multiple(kind))

    def compress_block(self, block, masks_over_left):
        left, right = halves(pad(block, 2 * self.width))
        return self.f(xor(left, *masks_over_left), right)

    def whole_tag(self, nonce, data, page):
        """U, of which the tag is the first bytes."""
        full = 2 * self.width
        data_blocks = cut(data, full)
        page_blocks = cut(page, full) or [b""]      # empty: one short block
        d = self.nonce_offsets(nonce, max(len(data_blocks), len(page_blocks)))
        total = self.masks.zeros
        for i, block in enumerate(data_blocks, 1):
            if i < len(data_blocks):
                kind = DATA
            else:
                kind = LAST_DATA if len(block) == full else SHORT_DATA
            given = self.compress_block(block, [self.mask(d, i, kind)])
            total = xor(total, given)
        for i, block in enumerate(page_blocks[:-1], 1):
            given = self.compress_block(block, [self.mask(d, i, PAGE)])
            total = xor(total, given)
        # The last page block goes under the sum instead of into it.
        last, m = page_blocks[-1], len(page_blocks)
        kind = LAST_PAGE if len(last) == full else SHORT_PAGE
        return self.compress_block(last, [total, self.mask(d, m, kind)])

    def tag(self, nonce, data, page):
        return self.whole_tag(nonce, data, page)[:self.tag_length]

    def filled_tag(self, tag):
        """V: zeros only, no 80."""
        return tag + bytes(self.width - len(tag))

    def keystream_from_tag(self, v, d, i):
        """H1 in both modes, Hi in counter."""
        return self.f(xor(v, self.mask(d, i, KEYSTREAM)), self.tag_bits)

    def seal(self, nonce, data, page):
        tag = self.tag(nonce, data, page)
        v = self.filled_tag(tag)
        blocks = cut(page, self.width)
        d = self.nonce_offsets(nonce, len(blocks))
        body = tag
        for i, block in enumerate(blocks, 1):
            if self.is_serial and i > 1:
                h = self.f(xor(h, self.mask(d, i, KEYSTREAM)), blocks[i - 2])
            else:
                h = self.keystream_from_tag(v, d, i)
            body += xor(h, block)
        return body

    def open(self, nonce, data, body):
        """(released, output) by the six steps of the document."""
        tag, ciphertext = body[:self.tag_length], body[self.tag_length:]
        cipher_blocks = cut(ciphertext, self.width)
        count = len(cipher_blocks)
        d = self.nonce_offsets(nonce, count + 1)
        v = self.filled_tag(tag)
        h = self.keystream_from_tag(v, d, 1)
        page = b""
        for i, block in enumerate(cipher_blocks, 1):
            page_block = xor(h, block)
            page += page_block
            if i == count:
                break
            if self.is_serial:
                h = self.f(xor(h, self.mask(d, i + 1, KEYSTREAM)), page_block)
            else:
                h = self.keystream_from_tag(v, d, i + 1)
        wanted = self.tag(nonce, data, page)
        return self.answer(equal_in_all_bytes(tag, wanted), page)


class Serial(TagFirst):
    is_serial = True


class Counter(TagFirst):
    is_serial = False


MODES = {"omd": Omd, "serial": Serial, "counter": Counter}

# ---------------------------------------------------------------- cases


def ramp(start, step, length):
    return bytes((start + step * i) % 256 for i in range(length))


def read_case(line, cache={}):
    """The mode object and the nonce, associated data and page of a case."""
    mode, function, *lengths = line.split(" ")
    tag, key, nonce, data, page = map(int, lengths)
    setting = mode, function, tag, key
    if setting not in cache:    # the masks of one setting are worked out once
        cache[setting] = MODES[mode](make_function(function, ramp(7, 13, key)), tag)
    return cache[setting], ramp(16, 1, nonce), ramp(5, 11, data), ramp(3, 7, page)


def damage_answer(mode, nonce, data, page, body):
    """'refused', 'lawful' (the true sealing of another page) or 'wrong'."""
    damaged = body[:-1] + bytes([body[-1] ^ 1])
    released, other = mode.open(nonce, data, damaged)
    if not released:
        return "refused"
    is_lawful = other != page and mode.seal(nonce, data, other) == damaged
    return "lawful" if is_lawful else "wrong"


def run_cases(lines, with_damage):
    """Prints the bodies; True if nothing was wrong."""
    differing = 0
    answers = {"refused": 0, "lawful": 0, "wrong": 0}
    for line in lines:
        line = line.rstrip("\r\n")
        if not line or line.startswith("#"):
            continue
        mode, nonce, data, page = read_case(line)
        body = mode.seal(nonce, data, page)
        comes_back = mode.open(nonce, data, body) == (True, page)
        differing += not comes_back
        print(f"{line}: {body.hex() if comes_back else 'differs'}")
        if with_damage:
            answer = damage_answer(mode, nonce, data, page, body)
            answers[answer] += 1
            if answer == "wrong":
                print(f"{line}: damaged body opened wrongly", file=sys.stderr)
    if with_damage:
        print("damaged bodies: {refused} refused, {lawful} lawful sealings of "
              "another page, {wrong} wrong".format(**answers), file=sys.stderr)
    return not differing and not answers["wrong"]


# ------------------------------------------------- the worked examples


def examples():
    """(name, bytes found, bytes of the document), all in hexadecimal."""
    nonce, page = b"\x11" * 12, b"\x41"
    base = "11" * 12 + "80"         # pad(N, w) up to its 80
    top_bit = b"\x80" + bytes(31)
    omd = Omd(Trial())
    yield "seal empty", omd.seal(nonce, b"", b""), base + "000000"
    yield "seal 41", omd.seal(nonce, b"", page), "504180" + "00" * 14
    yield ("seal 32 zeros", omd.seal(nonce, b"", bytes(32)),
           base + "00" * 18 + "80" + "00" * 16)
    yield "seal ad 07", omd.seal(nonce, b"\7", b""), "1691" + "11" * 10 + "80000000"
    released, output = omd.open(nonce, b"", bytes.fromhex("514180" + "00" * 14))
    yield "open damaged", bytes([released]) + output, "00" + "00"
    yield "double 32", double(top_bit, 0x0425), "00" * 30 + "0425"
    yield "double 64", double(top_bit + bytes(32), 0x0125), "00" * 62 + "0125"

    d = omd.nonce_offsets(nonce, 1)
    h1 = omd.first_keystream(d)
    yield "D(0)", d[0], base + "00" * 19
    yield "D(1)", d[1], base + "00" * 19
    yield "<128>", omd.tag_bits, "00" * 31 + "80"
    yield "H1", h1, base + "00" * 18 + "80"
    yield "Te", omd.page_part(h1, d, [page]), "4180" + "00" * 29 + "80"

    for mode in Serial(Trial()), Counter(Trial()):
        name = type(mode).__name__.lower()
        yield name + " empty", mode.seal(nonce, b"", b""), "91" + "11" * 11 + "80000000"
        yield (name + " 41", mode.seal(nonce, b"", page),
               "5091" + "11" * 10 + "80" + "00" * 4)
        d = mode.nonce_offsets(nonce, 1)
        v = mode.filled_tag(mode.tag(nonce, b"", page))
        yield name + " D(0)", d[0], base + "00" * 19
        yield name + " M(1, 4)", mode.mask(d, 1, SHORT_PAGE), base + "00" * 19
        yield name + " M(1, 6)", mode.mask(d, 1, KEYSTREAM), base + "00" * 19
        yield name + " left(X)", halves(pad(page, 64))[0], "4180" + "00" * 30
        yield (name + " U", mode.whole_tag(nonce, b"", page),
               "5091" + "11" * 10 + "80" + "00" * 19)
        yield name + " V", v, "5091" + "11" * 10 + "80" + "00" * 19
        yield (name + " H1", mode.keystream_from_tag(v, d, 1),
               "4180" + "00" * 29 + "80")

    # Small values that the text names on the way.
    yield "K(0) of SHA-256", SHA256.constants[0].to_bytes(4, "big"), "428a2f98"
    yield "K(0) of SHA-512", SHA512.constants[0].to_bytes(8, "big"), "428a2f98d728ae22"
    yield "ntz", bytes(map(trailing_zeros, (1, 2, 3, 4, 128))), "0001000207"


def run_examples():
    count = differing = 0
    for name, found, wanted in examples():
        count += 1
        if found.hex() != wanted:
            differing += 1
            print(f"{name}: {found.hex()} and not {wanted}", file=sys.stderr)
    print(f"{count} examples, {differing} differ")
    return not differing


def main(arguments):
    unknown = set(arguments) - {"--damage", "--examples"}
    if unknown:
        sys.exit("usage: modes.py [--damage] < cases, or modes.py --examples")
    if "--examples" in arguments:
        is_good = run_examples()
    else:
        is_good = run_cases(sys.stdin, "--damage" in arguments)
    return 0 if is_good else 1


if __name__ == "__main__":
    sys.exit(main(sys.argv[1:]))
