"""Ids that all collide under the hash of olap_instance at its fixed point, which anybody can read. The hash of an instance has
a key made of the instance's text, and under that hash they collide no more often than others."""

MODULUS = 2**61 - 1
POINT = 0x9E3779B97F4A7C10 // 8
STEP = 7  # bytes of a coefficient

# Two texts of two coefficients each that may stand for each other anywhere in an id: their difference is a short vector of
# the lattice of differences whose value at the point is 0.
PAIR = b"OOOOOOOOOOOOOO", b"EKSFLVGQDNQMFH"


def hashed(text: bytes, point: int = POINT) -> int:
    """The hash of an id, by its definition."""
    value, rest = 0, text
    while len(rest) >= STEP:
        value = (value + int.from_bytes(rest[:STEP], "little")) * point % MODULUS
        rest = rest[STEP:]
    last = len(text)
    for byte in rest:
        last = last << 8 | byte
    return (value + last) * point % MODULUS


def ids(blocks: int) -> list[bytes]:
    """Two to the number of blocks ids, all of one hash."""
    made = [b""]
    for _ in range(blocks):
        made = [front + end for front in made for end in PAIR]
    return made


assert hashed(PAIR[0] + b"s") == hashed(PAIR[1] + b"s")
