"""Slices of frame pictures as those of field pictures (ISO/IEC 13818-2, 6.2.4 to 6.2.6 and 7.6), for tests/field_pictures. Bits are text of 0 and 1."""

TOP_FIELD, BOTTOM_FIELD, FRAME = 1, 2, 3  # picture_structure

# ---- code tables (Annex B)

INCREMENTS = """1 011 010 0011 0010 00011 00010 0000111 0000110 00001011 00001010 00001001 00001000 00000111 00000110 0000010111 0000010110 0000010101
0000010100 0000010011 0000010010 00000100011 00000100010 00000100001 00000100000 00000011111 00000011110 00000011101 00000011100 00000011011 00000011010
00000011001 00000011000""".split()
ESCAPE = "00000001000"
INCREMENT_OF = {code: 1 + place for place, code in enumerate(INCREMENTS)}

# which of these each macroblock_type has: quant, forward, backward, pattern, intra
TYPES = {
    "I": {"1": "i", "01": "qi"},
    "P": {"1": "fp", "01": "p", "001": "f", "00011": "i", "00010": "qfp", "00001": "qp", "000001": "qi"},
    "B": {"10": "fb", "11": "fbp", "010": "b", "011": "bp", "0010": "f", "0011": "fp", "00011": "i", "00010": "qfbp", "000011": "qfp", "000010": "qbp",
          "000001": "qi"},
}

MOTIONS = """1 01 001 0001 000011 0000101 0000100 0000011 000001011 000001010 000001001 0000010001 0000010000 0000001111 0000001110 0000001101
0000001100""".split()
MOTION_OF = {code: place for place, code in enumerate(MOTIONS)}

PATTERNS = """01011 01001 001101 1101 0010111 0010011 00011111 1100 0010110 0010010 00011110 10011 00011011 00010111 00010011 1011 0010101 0010001
00011101 10001 00011001 00010101 00010001 001111 00001111 00001101 000000011 01111 00001011 00000111 000000111 1010 0010100 0010000 00011100 001110
00001110 00001100 000000010 10000 00011000 00010100 00010000 01110 00001010 00000110 000000110 10010 00011010 00010110 00010010 01101 00001001 00000101
000000101 01100 00001000 00000100 000000100 111 01010 01000 001100""".split()
PATTERN_OF = {code: 1 + place for place, code in enumerate(PATTERNS)}

LUMA_SIZES = {code: size for size, code in enumerate("100 00 01 101 110 1110 11110 111110 1111110 11111110 111111110 111111111".split())}
CHROMA_SIZES = {code: size for size, code in enumerate("00 01 10 110 1110 11110 111110 1111110 11111110 111111110 1111111110 1111111111".split())}

# Table B-14: how long a coefficient's code is, with its sign, by its zero bits; 2 of them: 9 where two more follow the first one bit
COEFFICIENT_BITS = [3, None, None, 7, 8, 24, 11, 13, 14, 15, 16, 17]


class Reader:
    """The bits of a slice, as text."""

    def __init__(self, text):
        self.text, self.at = text, 0

    def take(self, count):
        self.at += count
        return self.text[self.at - count : self.at]

    def code(self, table):
        """The next code of a table, and what it stands for."""
        for length in range(1, 12):
            code = self.text[self.at : self.at + length]
            if code in table:
                self.at += length
                return code, table[code]
        raise ValueError(f"no code at bit {self.at}")

    def block(self, intra, luma):
        """Goes behind a block."""
        text, at = self.text, self.at
        if intra:
            _, size = self.code(LUMA_SIZES if luma else CHROMA_SIZES)
            at = self.at + size
        elif text[at] == "1":
            at += 2
        while not text.startswith("10", at):
            zeros = text.index("1", at) - at
            if zeros == 1:
                at += 4 if text[at + 2] == "1" else 5
            elif zeros == 2:
                at += 9 if text.startswith("00", at + 3) else 6
            else:
                at += COEFFICIENT_BITS[zeros]
        self.at = at + 2


# ---- slices of a frame picture, as those of a field picture

class Vectors:
    """The predictors of motion vectors, one for each direction (7.6.3)."""

    def __init__(self, f_codes):
        self.f_codes = f_codes
        self.reset()

    def reset(self):
        self.last = [[0, 0], [0, 0]]

    def wrapped(self, value, f_code):
        span = 16 << f_code - 1
        return (value + span) % (2 * span) - span

    def read(self, reader, direction):
        """Goes behind a motion vector; its bits."""
        begin = reader.at
        for t in (0, 1):
            f_code = self.f_codes[direction][t]
            _, size = reader.code(MOTION_OF)
            if size:
                negative = reader.take(1) == "1"
                step = (size - 1 << f_code - 1) + (int(reader.take(f_code - 1), 2) if f_code > 1 else 0) + 1
                self.last[direction][t] = self.wrapped(self.last[direction][t] + (-step if negative else step), f_code)
        return reader.text[begin : reader.at]

    def zero(self):
        """The bits of a forward vector of zero."""
        out = ""
        for t in (0, 1):
            f_code = self.f_codes[0][t]
            step = self.wrapped(-self.last[0][t], f_code)
            out += MOTIONS[0]
            if step:
                far = abs(step) - 1
                rest = format(far % (1 << f_code - 1), f"0{f_code - 1}b") if f_code > 1 else ""
                out = out[:-1] + MOTIONS[(far >> f_code - 1) + 1] + ("1" if step < 0 else "0") + rest
            self.last[0][t] = 0
        return out


def as_field_slice(text, kind, f_codes, parity, opposite):
    """The bits of a slice behind its start code, in a field picture."""
    reader, vectors, first = Reader(text), Vectors(f_codes), True
    out = [reader.take(6)]
    select = "1" if (parity == BOTTOM_FIELD) != opposite else "0"
    names = {flags: code for code, flags in TYPES[kind].items()}
    while text.find("1", reader.at) >= 0:
        code, skipped = reader.code(INCREMENT_OF)
        skipped -= 1
        assert not (first and skipped), "a slice that begins within a row"
        first = False
        if skipped and kind == "P" and opposite:
            out += [INCREMENTS[0] + names["f"] + "01" + select + vectors.zero() for _ in range(skipped)]
            code = INCREMENTS[0]
        if skipped and kind == "P":
            vectors.reset()
        out.append(code)
        out += macroblock(reader, kind, vectors, select, names if opposite else None)
    return "".join(out)


def macroblock(reader, kind, vectors, select, names):
    """The bits of a macroblock behind its address; with names of types each predicted one has a vector."""
    code, flags = reader.code(TYPES[kind])
    intra, told = "i" in flags, flags
    if names and not intra and "f" not in flags:
        told = flags.replace("p", "fp")
        code = names[told]
    yield code
    if "f" in told or "b" in told:
        yield "01"
    if "q" in flags:
        yield reader.take(5)
    if told != flags:
        yield select + vectors.zero()
    for direction, letter in enumerate("fb"):
        if letter in flags:
            yield select + vectors.read(reader, direction)
    if intra or kind == "P" and "f" not in flags:
        vectors.reset()
    begin = reader.at
    pattern = 63 if intra else 0
    if "p" in flags:
        _, pattern = reader.code(PATTERN_OF)
    for place in range(6):
        if pattern >> 5 - place & 1:
            reader.block(intra, place < 4)
    yield reader.text[begin : reader.at]
