"""What the makers of random texts share."""

from __future__ import annotations

import random


class Draws:
    """Random numbers from a seed, or from a generator that has one."""

    def __init__(self, seed: int | str | random.Random):
        self.random = seed if isinstance(seed, random.Random) else random.Random(seed)

    def happens(self, chance: float) -> bool:
        return self.random.random() < chance
