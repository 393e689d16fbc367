"""The words that a seed draws: PCG's XSH RR 64/32 on stream 54, as docs/FORMATS.md says."""

from collections.abc import Sequence
from typing import Optional

MULTIPLIER, INCREMENT, MOST = 6364136223846793005, (54 << 1) | 1, (1 << 64) - 1


class Draws:
    """The words of a seed, which are made when they are first asked for."""

    def __init__(self, seed: int) -> None:
        self.state = (INCREMENT + seed) * MULTIPLIER + INCREMENT & MOST
        self.words: list[int] = []

    def choice(self, draw: int, offers: int) -> int:
        """Which of several offers, counted from 0, the draw of this number takes."""
        while len(self.words) <= draw:
            self.words.append(self.further())
        return self.words[draw] * offers >> 32

    def further(self) -> int:
        """The next word."""
        state = self.state
        self.state = state * MULTIPLIER + INCREMENT & MOST
        word, turn = ((state >> 18) ^ state) >> 27 & 0xFFFFFFFF, state >> 59
        return (word >> turn | word << (-turn & 31)) & 0xFFFFFFFF


def seed_of(draws: Sequence[tuple[int, int]], seeds: int = 20_000) -> Optional[int]:
    """The first of so many seeds by which each draw, of so many offers, takes the one that is named."""
    for seed in range(seeds):
        words = Draws(seed)
        if all(words.choice(draw, offers) == taken for draw, (taken, offers) in enumerate(draws)):
            return seed
    return None
