"""A second reading of document 01, of the KTX request, of the stored grid, of the fields' numbers, of the levels and of the flags, in Python: the two
headers, the refusals and their orders, the pictures, a plate's levels, and what `plate` writes. Pictures are those of files, with the stored grid,
where a call is not told otherwise.

It shares nothing with the crates but those documents. The tools that know what must come out import it.
"""
import functools

PVR_VERSION = b"PVR\x03"
KTX_BEGIN = b"\xABKTX"
KTX_IDENTIFIER = b"\xABKTX 11\xBB\r\n\x1A\n"
KTX_LITTLE_ENDIAN = bytes([1, 2, 3, 4])

# The refusals of each call, in their order.
BLOCK_ORDER = (1, 2, 3, 4, 5)
ROW_ORDER = (1, 2, 3, 4, 5, 6)
TEXEL_ORDER = (1, 2, 3, 5, 6)
KTX_HEADER_ORDER = (31, 32, 33, 34, 35, 37)
KTX_PICTURE_ORDER = KTX_HEADER_ORDER + (1, 2, 36, 3, 4, 5)
PVR_HEADER_ORDER = (11, 12, 18, 13, 14, 15, 16, 17)
PVR_PROGRAM_ORDER = PVR_HEADER_ORDER + (21, 1, 22, 23, 3, 5)
KTX_PROGRAM_ORDER = (31, 32, 33, 34, 35, 21, 37, 1, 22, 23, 36, 3, 5)
# Those of a level: of the file, where 37 is for the key/value bytes alone; of the asked level's size word; of its picture.
PVR_LEVELS_ORDER = PVR_HEADER_ORDER + (1, 2, 20, 19)
KTX_LEVELS_ORDER = KTX_HEADER_ORDER + (1, 2, 20, 19)
SIZE_WORD_ORDER = (37, 36)
LEVEL_PICTURE_ORDER = (3, 4, 5)


# ---- pictures

def bits(v, hi, lo):
    return v >> lo & (1 << hi - lo + 1) - 1


def colour(v, is_a):
    """Red, green, blue and alpha of a colour of 16 bits: 5, 5, 5 and 4 bits."""
    if v >> 15:
        blue = bits(v, 4, 1) * 2 + bits(v, 4, 4) if is_a else bits(v, 4, 0)
        return bits(v, 14, 10), bits(v, 9, 5), blue, 15
    blue = bits(v, 3, 1) * 4 + bits(v, 3, 2) if is_a else bits(v, 3, 0) * 2 + bits(v, 3, 3)
    return bits(v, 11, 8) * 2 + bits(v, 11, 11), bits(v, 7, 4) * 2 + bits(v, 7, 7), blue, bits(v, 14, 12) * 2


class Block:
    def __init__(self, data, two):
        self.mod = int.from_bytes(data[:4], "little")
        a = int.from_bytes(data[4:6], "little")
        self.mode = a & 1
        self.a, self.b = colour(a, True), colour(int.from_bytes(data[6:8], "little"), False)
        self.stored = {}
        if not two:
            table = [(0, 3, 5, 8), (0, 4, 4, 8)][self.mode]
            for i in range(16):
                self.stored[i % 4, i // 4] = table[self.mod >> 2 * i & 3]
        elif self.mode == 0:
            for i in range(32):
                self.stored[i % 8, i // 8] = 8 * (self.mod >> i & 1)
        else:
            held = [(x, y) for y in range(4) for x in range(8) if (x + y) % 2 == 0]
            for k, place in enumerate(held):
                self.stored[place] = (0, 3, 5, 8)[self.mod >> 2 * k & 3]
            self.stored[0, 0] = self.stored[0, 0] + 3 & 8
            if self.mod & 1:
                self.stored[4, 2] = self.stored[4, 2] + 3 & 8


def blocks(width, height, two, stored=True):
    """The blocks across and down of a picture's grid: two each way at least where it is the stored one, else those that cover the picture."""
    across, down = -(-width // (8 if two else 4)), -(-height // 4)
    return (max(2, across), max(2, down)) if stored else (across, down)


def need(width, height, two, stored=True):
    """How many bytes the words of that grid take."""
    across, down = blocks(width, height, two, stored)
    return 8 * across * down


def address(x, y, across, down):
    """Morton order over the smaller side, y's bit below x's; above it the rest of the longer side."""
    at, place, side = 0, 0, min(across, down)
    while 1 << place < side:
        at |= (y >> place & 1) << 2 * place | (x >> place & 1) << 2 * place + 1
        place += 1
    return at | (x >> place | y >> place) << 2 * place


def shares(size, p):
    half = size // 2
    before, after = max(half - p, 0), max(p - half, 0)
    return before, size - before - after, after


class Grid:
    """So many blocks, and what they give at a texel."""

    def __init__(self, data, across, down, two):
        self.two, self.size, self.across, self.down = two, 8 if two else 4, across, down
        self.rows = [[self.block(data, x, y) for x in range(self.across)] for y in range(self.down)]
        self.across_shares = [shares(self.size, p) for p in range(self.size)]
        self.down_shares = [shares(4, p) for p in range(4)]

    def block(self, data, x, y):
        at = 8 * address(x, y, self.across, self.down)
        return Block(data[at:at + 8], self.two)

    def stored(self, x, y):
        """The stored weight at a texel, round the torus."""
        return self.rows[y // 4 % self.down][x // self.size % self.across].stored[x % self.size, y % 4]

    def weight(self, own, x, y):
        """The weight at a texel of the block `own`: stored, or filled from its neighbours."""
        if (x % self.size, y % 4) in own.stored:
            return own.stored[x % self.size, y % 4]
        if not own.mod & 1:
            return (self.stored(x, y - 1) + self.stored(x, y + 1) + self.stored(x - 1, y) + self.stored(x + 1, y) + 2) // 4
        if own.mod >> 20 & 1:
            return (self.stored(x, y - 1) + self.stored(x, y + 1) + 1) // 2
        return (self.stored(x - 1, y) + self.stored(x + 1, y) + 1) // 2

    def colours(self, x, y):
        """A and B at a texel: the nine blocks' channels by their shares, brought to eight bits."""
        sums = [[0] * 4, [0] * 4]
        for j, down_share in enumerate(self.down_shares[y % 4]):
            for i, across_share in enumerate(self.across_shares[x % self.size]):
                factor = across_share * down_share
                if factor:
                    block = self.rows[(y // 4 + j - 1) % self.down][(x // self.size + i - 1) % self.across]
                    for k in range(4):
                        sums[0][k] += factor * block.a[k]
                        sums[1][k] += factor * block.b[k]
        for s in sums:
            for k in range(3):
                s[k] = s[k] // 4 + s[k] // 128 if self.two else s[k] // 2 + s[k] // 64
            s[3] = s[3] // 2 + s[3] // 32 if self.two else s[3] + s[3] // 16
        return sums

    def word(self, x, y):
        """The texel."""
        own = self.rows[y // 4][x // self.size]
        w = self.weight(own, x, y)
        red, green, blue, alpha = [(a * (8 - w) + b * w) // 8 for a, b in zip(*self.colours(x, y))]
        if not self.two and own.mode and own.mod >> 2 * (y % 4 * 4 + x % 4) & 3 == 2:
            alpha = 0
        return blue | green << 8 | red << 16 | alpha << 24


@functools.cache
def grid_of(data, width, height, two, stored=True):
    """A picture's grid, from the bytes that it needs. The same data is read once."""
    return Grid(data, *blocks(width, height, two, stored), two)


@functools.cache
def decode(data, width, height, two, stored=True):
    """The words of a picture, in row order. The same data is decoded once."""
    grid = grid_of(data, width, height, two, stored)
    return [grid.word(x, y) for y in range(height) for x in range(width)]


def decode_at(file, width, height, two, payload):
    """The same from the bytes of a file that it needs."""
    return decode(bytes(file[payload:payload + need(width, height, two)]), width, height, two)


def red_first(word):
    """The same texel with red in the low byte: its low and third bytes exchanged."""
    return word & 0xFF00FF00 | (word & 0xFF) << 16 | word >> 16 & 0xFF


# ---- refusals

def u32(file, at):
    return int.from_bytes(file[at:at + 4], "little")


def holding(conditions):
    """The numbers whose condition holds."""
    return {number for number, holds in conditions.items() if holds}


def first(order, faults):
    """The first number of an order that is among the faults, or 0."""
    return next((number for number in order if number in faults), 0)


def picture_faults(left, width, height, two, stored=True):
    """What is wrong with a picture for which so many bytes of data are left."""
    across, down = blocks(width, height, two, stored)
    return holding({
        1: width == 0 or height == 0,
        2: width > 65536 or height > 65536,
        22: width > 1024 or height > 1024,
        23: 8 * across * down > 32768,
        3: left < 8 * across * down,
        5: across & across - 1 or down & down - 1,
    })


def pvr_file(file):
    """All that is wrong with a PVR file, and the sides, the depth and where level 0 begins. Fields past its end are read as less or as 0."""
    pixel_format, metadata = int.from_bytes(file[8:16], "little"), u32(file, 48)
    plate = width, height, two, payload = u32(file, 28), u32(file, 24), pixel_format < 2, 52 + metadata
    faults = holding({
        11: len(file) < 52,
        12: file[:4] != PVR_VERSION,
        18: u32(file, 4) not in (0, 2),
        13: pixel_format > 3,
        14: u32(file, 32) != 1,
        15: u32(file, 36) != 1,
        16: u32(file, 40) != 1,
        17: u32(file, 44) == 0,
        21: metadata > 4096,
    })
    return faults | picture_faults(len(file) - payload, width, height, two), plate


def ktx_file(file):
    """The same of a KTX file, and its size word."""
    internal_format, key_values = u32(file, 28), u32(file, 60)
    width, height, two, payload = u32(file, 36), u32(file, 40), internal_format in (0x8C01, 0x8C03), 64 + key_values + 4
    size = u32(file, payload - 4)
    faults = holding({
        31: len(file) < 64,
        32: file[:12] != KTX_IDENTIFIER,
        33: file[12:16] != KTX_LITTLE_ENDIAN,
        34: u32(file, 16) != 0 or u32(file, 24) != 0 or not 0x8C00 <= internal_format <= 0x8C03,
        35: u32(file, 44) != 0 or u32(file, 48) != 0 or u32(file, 52) != 1,
        21: key_values > 4096,
        37: payload > len(file),
        36: size != need(width, height, two),
    })
    return faults | picture_faults(len(file) - payload, width, height, two), (width, height, two, payload, size)


def ktx_header(file):
    """What the KTX header's reader answers: a refusal's number, or 0 and the sides, the depth, where the data begins and the size word."""
    faults, plate = ktx_file(file)
    number = first(KTX_HEADER_ORDER, faults)
    return number, None if number else plate


def ktx_picture(file, room):
    """What decoding a KTX file into so many words answers: a refusal's number, or 0 and the picture's words."""
    faults, plate = ktx_file(file)
    number = first(KTX_PICTURE_ORDER, faults | holding({4: plate[0] * plate[1] > room}))
    return number, None if number else decode_at(file, *plate[:4])


# ---- levels

def level_sides(width, height, k):
    """The sides of level k: the first ones halved k times, rounded down, never below 1."""
    return max(1, width >> k), max(1, height >> k)


def most_levels(width, height):
    """How many levels there may be: the first, and one for each halving until both sides are 1."""
    count = 1
    while max(width, height) > 1:
        width, height, count = width // 2, height // 2, count + 1
    return count


def level_start(width, height, two, begin, sized, k):
    """Where the bytes of level k start, by the needs of those before it. With size words: one before each level, and padding to four after it."""
    at = begin
    for i in range(k):
        taken = need(*level_sides(width, height, i), two)
        at += 4 + taken + -taken % 4 if sized else taken
    return at + 4 if sized else at


def levels_of(file, k):
    """All that is wrong with a file that is asked for level k, with the order; and its sides, depth, where its levels begin, and if they have size
    words. What is wrong with the asked level itself is not among it."""
    sized = file[:4] == KTX_BEGIN
    faults, (width, height, two, *_) = ktx_file(file) if sized else pvr_file(file)
    count, begin = (u32(file, 56) or 1, 64 + u32(file, 60)) if sized else (u32(file, 44), 52 + u32(file, 48))
    faults = faults - {37} | holding({37: sized and begin > len(file), 20: count > most_levels(width, height), 19: k >= count})
    return faults, KTX_LEVELS_ORDER if sized else PVR_LEVELS_ORDER, (width, height, two, begin, sized)


def read_level(file, k):
    """What describing level k answers: a refusal's number, or 0 and its sides, the depth, where its bytes start and how many it needs."""
    faults, order, (width, height, two, begin, sized) = levels_of(file, k)
    number = first(order, faults)
    if number:
        return number, None
    sides, start = level_sides(width, height, k), level_start(width, height, two, begin, sized, k)
    size = need(*sides, two)
    if sized:
        number = first(SIZE_WORD_ORDER, holding({37: start > len(file), 36: u32(file, start - 4) != size}))
    return number, None if number else (*sides, two, start, size)


def decode_level(file, k, room):
    """What decoding level k into so many words answers: a refusal's number, or 0 and its words, by its bytes alone."""
    number, level = read_level(file, k)
    if number:
        return number, None
    width, height, two, start, _ = level
    faults = picture_faults(len(file) - start, width, height, two) | holding({4: width * height > room})
    number = first(LEVEL_PICTURE_ORDER, faults)
    return number, None if number else decode_at(file, width, height, two, start)


# ---- the program

def refusal(file):
    """The number of the program's first refusal, or 0; with the sides, the depth and where level 0 begins."""
    is_ktx = file[:4] == KTX_BEGIN
    faults, plate = ktx_file(file) if is_ktx else pvr_file(file)
    number = first(KTX_PROGRAM_ORDER if is_ktx else PVR_PROGRAM_ORDER, faults)
    return number, None if number else plate[:4]


def written(file):
    """What `plate` writes."""
    number, plate = refusal(file)
    if number:
        return b"refused %d\n" % number
    width, height = plate[:2]
    head = bytes([0, 0, 2]) + bytes(9) + width.to_bytes(2, "little") + height.to_bytes(2, "little") + bytes([0x20, 0x28])
    return head + b"".join(w.to_bytes(4, "little") for w in decode_at(file, *plate))
