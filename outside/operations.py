"""The operations of clause 4.1 of ETS 300 961, and A-law by the rule of request W-204, computed on plain integers.

Written from the standard, the house rules and the requests, not from the crates. compare_operations.py makes a text of
them: what the program `test_operations` must print."""
from collections.abc import Callable, Sequence

WORDS = [-32768, -32767, -32766, -28180, -16385, -16384, -16383, -4097, -2, -1,
         0, 1, 2, 511, 8191, 16383, 16384, 32735, 32766, 32767]
LONGS = [-2147483648, -2147483647, -1073741825, -1073741824, -65537, -65536, -32769, -32768, -2, -1,
         0, 1, 2, 32767, 32768, 65535, 65536, 1073741823, 1073741824, 2147483647]
COUNTS = [-32768, -40, -32, -31, -17, -16, -15, -3, -1, 0, 1, 4, 14, 15, 16, 17, 30, 31, 32, 40]
LEAST = -32768


# ---- the operations

def saturate(x: int, bits: int) -> int:
    """x, or the end of the range of that many bits where x lies outside the range."""
    return int(max(-2 ** (bits - 1), min(x, 2 ** (bits - 1) - 1)))


def low(x: int, bits: int) -> int:
    """The low bits of x, in two's complement."""
    kept = x & (1 << bits) - 1
    return kept - (1 << bits) if kept >= 1 << bits - 1 else kept


def right(x: int, n: int, bits: int) -> int:
    """x >> n with sign extension: rounded down. A negative count shifts left."""
    return left(x, -n, bits) if n < 0 else x >> n


def left(x: int, n: int, bits: int) -> int:
    """x << n with zero fill: the bits that pass the top are lost. A negative count shifts right."""
    return right(x, -n, bits) if n < 0 else low(x << n, bits)


def add(a: int, b: int) -> int:
    return saturate(a + b, 16)


def sub(a: int, b: int) -> int:
    return saturate(a - b, 16)


def mult(a: int, b: int) -> int:
    return 32767 if a == b == LEAST else (a * b) >> 15


def mult_r(a: int, b: int) -> int:
    return 32767 if a == b == LEAST else (a * b + 16384) >> 15


def l_mult(a: int, b: int) -> int:
    """The standard says of -32768 times -32768 only that it does not occur. Our reading: the product saturates."""
    return 2147483647 if a == b == LEAST else (a * b) << 1


def l_add(a: int, b: int) -> int:
    return saturate(a + b, 32)


def l_sub(a: int, b: int) -> int:
    return saturate(a - b, 32)


def absolute(a: int) -> int:
    return 32767 if a == LEAST else abs(a)


def div(num: int, denum: int) -> int:
    """The loop of the note in 4.2.5, where denum >= num > 0. By the house rules a numerator of 0 gives 0. The rest is
    our reading: 0 if an argument is negative or the divisor is 0, and 32767 if num > denum > 0."""
    if num <= 0 or denum <= 0:
        return 0
    if num > denum:
        return 32767
    quotient = 0
    for _ in range(15):
        quotient = quotient << 1
        num = num << 1
        if num >= denum:
            num = num - denum
            quotient = quotient + 1
    return quotient


def norm(x: int) -> int:
    """How many left shifts bring a positive x to 1073741824 or above."""
    shifts = 0
    while x << shifts < 1073741824:
        shifts = shifts + 1
    return shifts


def expand(code: int) -> int:
    """Request W-204: the 13-bit value of an A-law code. The top bit set means positive; then 3 bits of segment and 4 of
    step. The even bits are inverted."""
    bits = code ^ 0x55
    segment, step = bits >> 4 & 7, bits & 15
    magnitude = 2 * step + 1 if segment == 0 else (2 * step + 33) << segment - 1
    return magnitude if bits & 128 else -magnitude


def compress(v: int) -> int:
    """Request W-204: the A-law code of a 13-bit value. A negative value counts as -v - 1."""
    top, counted = (0, -v - 1) if v < 0 else (128, v)
    if counted < 32:
        segment, step = 0, counted // 2
    else:
        segment = next(s for s in range(1, 8) if 16 <= counted >> s <= 31)
        step = (counted >> segment) - 16
    return (top | segment << 4 | step) ^ 0x55


# name, first arguments, second arguments, operation
PAIRS: list[tuple[str, list[int], list[int], Callable[[int, int], int]]] = [
    ('add', WORDS, WORDS, add),
    ('sub', WORDS, WORDS, sub),
    ('mult', WORDS, WORDS, mult),
    ('mult_r', WORDS, WORDS, mult_r),
    ('div', WORDS, WORDS, div),
    ('l_mult', WORDS, WORDS, l_mult),
    ('l_add', LONGS, LONGS, l_add),
    ('l_sub', LONGS, LONGS, l_sub),
    ('shr', WORDS, COUNTS, lambda x, n: right(x, n, 16)),
    ('shl', WORDS, COUNTS, lambda x, n: left(x, n, 16)),
    ('l_shr', LONGS, COUNTS, lambda x, n: right(x, n, 32)),
    ('l_shl', LONGS, COUNTS, lambda x, n: left(x, n, 32)),
]

# name, arguments, operation
SINGLES: list[tuple[str, list[int], Callable[[int], int]]] = [
    ('abs', WORDS, absolute),
    ('long_word', WORDS, lambda a: a),
    ('low_word', LONGS, lambda x: low(x, 16)),
    ('norm', [x for x in LONGS if x > 0], norm),
]

# name, arguments, how many in a row, operation
RUNS: list[tuple[str, Sequence[int], int, Callable[[int], int]]] = [
    ('expand', range(256), 16, expand),
    ('compress', range(-4096, 4096), 32, compress),
]
