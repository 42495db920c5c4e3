"""Crews of every kind: each a number of workers, a cut depth and a grain."""

import itertools

CREWS = [*itertools.product((1, 2, 7, 64), (1, 2, 3), (1, 65_536)), *itertools.product((1, 7), (4, 5, 6), (1,))]


def words_of(crew):
    workers, cut, grain = crew
    return ["--workers", str(workers), "--cut", str(cut), "--grain", str(grain)]
