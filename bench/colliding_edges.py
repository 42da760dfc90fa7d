"""Edges that collide under a known key: pairs of numbers whose hashes under the key 0 lie near each other.

The hash is SipHash of the blocks of 8 numbers, with one round a word and three at the end, as the map of edges takes it.
The places in the blocks change bits of the tag. All hashes of a list are computed at once, each in 128 bits of one
number, of which the lower 64 are kept."""

from __future__ import annotations

import random
import struct

SIP_START = (0x736F6D6570736575, 0x646F72616E646F6D, 0x6C7967656E657261, 0x7465646279746573)
ONE_WORD = 2**64 - 1


def rotated(x: int, count: int, kept: int) -> int:
    x <<= count
    return (x | x >> 64) & kept


def sip_round(v: tuple[int, ...], kept: int) -> tuple[int, ...]:
    a, b, c, d = v
    a, c = a + b & kept, c + d & kept
    b, d, a = rotated(b, 13, kept) ^ a, rotated(d, 16, kept) ^ c, rotated(a, 32, kept)
    c, a = c + b & kept, a + d & kept
    return a, rotated(b, 17, kept) ^ c, rotated(c, 32, kept), rotated(d, 21, kept) ^ a


def with_word(v: tuple[int, ...], word: int, kept: int) -> tuple[int, ...]:
    a, b, c, d = sip_round((*v[:3], v[3] ^ word), kept)
    return a ^ word, b, c, d


def places_in_blocks(low: int, high: int) -> int:
    """What the places of two numbers in their blocks change: six bits of the tag."""
    return low % 8 << 24 ^ high % 8 << 27


def hashes(pairs: list[tuple[int, int]]) -> list[int]:
    """The hashes of pairs of numbers after the key 0, folded to 32 bits as the map takes them."""
    ones = int.from_bytes(struct.pack("<QQ", 1, 0) * len(pairs), "little")
    kept = ones * ONE_WORD
    words = int.from_bytes(b"".join(struct.pack("<IIQ", low // 8, high // 8, 0) for low, high in pairs), "little")
    keyed = with_word(with_word(SIP_START, 0, ONE_WORD), 0, ONE_WORD)
    v = tuple(ones * part for part in keyed)
    # the blocks, and the number of bytes that were written
    for word in (words, ones * (24 << 56)):
        v = with_word(v, word, kept)
    v = (*v[:2], v[2] ^ ones * 0xFF, v[3])
    for _ in range(3):
        v = sip_round(v, kept)
    whole = v[0] ^ v[1] ^ v[2] ^ v[3]
    parts = struct.unpack(f"<{4 * len(pairs)}I", whole.to_bytes(16 * len(pairs), "little"))
    return [low ^ high ^ places_in_blocks(*pair) for low, high, pair in zip(parts[::4], parts[1::4], pairs)]


def colliding_pairs(count: int, numbers: int) -> list[tuple[int, int]]:
    """Pairs of numbers that share none, with hashes in one sixteenth of a map of three times as many pairs. The map has
    groups of 12 places, a power of two of them, with at most nine keys on average."""
    groups = 1
    while 9 * groups < 3 * count:
        groups *= 2
    free, found = list(range(numbers)), []
    shuffle = random.Random(1).shuffle
    while len(found) < count:
        shuffle(free)
        pairs = [(min(pair), max(pair)) for pair in zip(free[::2], free[1::2])]
        taken = [16 * (value % groups) < groups for value in hashes(pairs)]
        found += [pair for pair, is_taken in zip(pairs, taken) if is_taken]
        unpaired = free[2 * len(pairs) :]
        free = unpaired + [number for pair, is_taken in zip(pairs, taken) if not is_taken for number in pair]
    return found[:count]
