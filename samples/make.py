#!/usr/bin/env python3
"""samples/make.py: writes games.csv (48 games, a key and twelve traits each) and new_game.csv (one game without a key) beside itself.

No game is real. Six families have a centre for each trait; a game lies near the centre of its family by Vigna's xorshift64* from seed 1, and the new game is one
more of the third family (keys 1003, 1009, .. 1045). The traits differ in scale, so each is standardised over the 48 games, as a user's own should be: less its
mean, over its standard deviation, three decimals."""
import math
import pathlib

TRAITS = ["return", "hit_rate", "volatility", "bonus_rate", "bonus_share", "dry_spell", "top_prize", "mean_win", "reels", "lines", "symbols", "retrigger"]
FAMILIES = [
    [0.962, 0.31, 4.0, 0.0080, 0.22, 60, 1000, 3.1, 5, 20, 11, 0.05],
    [0.948, 0.22, 9.5, 0.0045, 0.41, 140, 10000, 5.9, 5, 25, 12, 0.12],
    [0.955, 0.27, 7.0, 0.0062, 0.35, 95, 5000, 4.2, 6, 40, 13, 0.20],
    [0.921, 0.12, 3.0, 0.0000, 0.00, 45, 800, 7.5, 3, 5, 8, 0.00],
    [0.965, 0.38, 2.5, 0.0110, 0.18, 35, 500, 2.4, 5, 50, 10, 0.02],
    [0.940, 0.18, 12.0, 0.0030, 0.55, 220, 25000, 8.8, 6, 117, 14, 0.30],
]
GAMES = 48
FIRST_KEY = 1001
SPREAD = 0.15


def noise():
    """Numbers from -1 to 1, by the sign stream's generator."""
    state = 1
    while True:
        state ^= state >> 12
        state = (state ^ state << 25) % 2**64
        state ^= state >> 27
        yield (state * 0x2545F4914F6CDD1D % 2**64) / 2**63 - 1


RANGES = [max(centres) - min(centres) for centres in zip(*FAMILIES)]


def game(family, near):
    return [max(0, centre + SPREAD * width * next(near)) for centre, width in zip(FAMILIES[family], RANGES)]


def standards(games):
    """Mean and standard deviation of each trait."""
    for values in zip(*games):
        mean = math.fsum(values) / len(values)
        yield mean, math.sqrt(math.fsum((value - mean) ** 2 for value in values) / len(values))


def row(traits, scale):
    return ",".join(f"{(value - mean) / deviation:.3f}" for value, (mean, deviation) in zip(traits, scale))


def main():
    near = noise()
    games = [game(i % len(FAMILIES), near) for i in range(GAMES)]
    scale = list(standards(games))
    here = pathlib.Path(__file__).parent
    lines = [f"{FIRST_KEY + i},{row(traits, scale)}" for i, traits in enumerate(games)]
    here.joinpath("games.csv").write_text("\n".join(["key," + ",".join(TRAITS), *lines, ""]))
    here.joinpath("new_game.csv").write_text("\n".join([",".join(TRAITS), row(game(2, near), scale), ""]))


main()
