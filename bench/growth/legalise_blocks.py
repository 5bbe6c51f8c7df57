"""Blocks for `legalise`: floor plans that are no square of rows one above the other."""
from text import CELLS, SITE, block, cell, macro, row, site


def late_row(n):
    """one row of a site behind as many rows of another as there are components"""
    rows = [row(i, "a", 0, (i + 1) * SITE, 1) for i in range(n)] + [row(n, "b", 0, 0, n)]
    cells = [cell(i, "B1", min(i, n - 2) * SITE, 0) for i in range(n)]
    return CELLS, block((0, 0, n * SITE, (n + 1) * SITE), rows, components=cells)


def other_sites(n):
    """components that start above as many rows of another site, with their own row at the bottom"""
    rows = [row(0, "b", 0, 0, n)] + [row(i + 1, "a", 0, (i + 1) * SITE, 1) for i in range(n)]
    cells = [cell(i, "B1", i * SITE, n * SITE) for i in range(n)]
    return CELLS, block((0, 0, n * SITE, (n + 1) * SITE), rows, components=cells)


def tower(n):
    """so many rows of one site above one another, and as many components at the lowest one"""
    rows = [row(i, "a", 0, i * SITE, 1) for i in range(n)]
    return CELLS, block((0, 0, SITE, n * SITE), rows, components=[cell(i, "A1", 0, 0) for i in range(n)])


def side_by_side(n):
    """Returns so many components side by side, the last two at one place."""
    return [cell(i, "A1", min(i, n - 2) * SITE, 0) for i in range(n)]


def rows_at_one_height(n):
    """so many rows of one site side by side"""
    rows = [row(i, "a", i * SITE, 0, 1) for i in range(n)]
    return CELLS, block((0, 0, n * SITE, SITE), rows, components=side_by_side(n))


def rows_on_one_another(n):
    """so many rows, as long as there are components, all at one place"""
    rows = [row(i, "a", 0, 0, n) for i in range(n)]
    return CELLS, block((0, 0, n * SITE, SITE), rows, components=side_by_side(n))


def tall_site(n):
    """so many rows of two sites, and beside them one of a site that is as high as the die"""
    rows = [row(i, "a", 0, i * SITE, 2) for i in range(n)] + [row(n, "t", 2 * SITE, 0, 1)]
    cells = [cell(i, "A1", 0, min(i, n - 2) * SITE) for i in range(n)]
    return CELLS + site("t", SITE, n * SITE), block((0, 0, 3 * SITE, n * SITE), rows, components=cells)


def comb(n):
    """a row with a FIXED component on every second site, and as many of two sites that fit behind them"""
    cells = [cell(i, "A1", (2 * i + 1) * SITE, 0, "FIXED") for i in range(n)] + [cell(n + i, "A2", 0, 0) for i in range(n)]
    return CELLS, block((0, 0, (4 * n + 2) * SITE, SITE), [row(0, "a", 0, 0, 4 * n + 2)], components=cells)


def gaps(n):
    """the same with components of three sites that may move, one site apart"""
    cells = [cell(i, "A3", 4 * i * SITE, 0) for i in range(n)] + [cell(n + i, "A2", 0, 0) for i in range(n)]
    return CELLS, block((0, 0, (6 * n + 1) * SITE, SITE), [row(0, "a", 0, 0, 6 * n + 1)], components=cells)


def comb_from_the_right(n):
    """a row with a FIXED component on every second site, listed from the right"""
    cells = [cell(i, "A1", (2 * (n - i) - 1) * SITE, 0, "FIXED") for i in range(n)]
    cells += [cell(n + i, "A1", 2 * n * SITE, 0) for i in range(2)]
    return CELLS, block((0, 0, (2 * n + 4) * SITE, SITE), [row(0, "a", 0, 0, 2 * n + 4)], components=cells)


def columns(n):
    """so many rows, each cut by as many FIXED columns that are as high as the die"""
    rows = [row(i, "a", 0, i * SITE, 2 * n) for i in range(n)]
    cells = [cell(i, "COLUMN", (2 * i + 1) * SITE, 0, "FIXED") for i in range(n)] + [cell(n + i, "A1", 0, 0) for i in range(2)]
    return CELLS + macro("COLUMN", 1, n * SITE), block((0, 0, 2 * n * SITE, n * SITE), rows, components=cells)


def rows_outside(n):
    """so many rows below the die, from which the components start"""
    rows = [row(i, "a", 0, (i - n) * SITE, n) for i in range(n)] + [row(n, "a", 0, 0, n)]
    return CELLS, block((0, 0, n * SITE, SITE), rows, components=[cell(i, "A1", i * SITE, -n * SITE) for i in range(n)])


def plain(n):
    """rows one above the other, 95 % filled, each component a little off its place"""
    side = 1
    while side * (side * 95 // 200) < n:
        side += 1
    each = side * 95 // 200
    turn = ("N", "FS")
    rows = [row(i, "a", 0, i * SITE, side, turn[i % 2]) for i in range(side)]
    cells = [
        cell(i, "A2", min(i % each * 2 * SITE + 120, (side - 2) * SITE), i // each * SITE, "PLACED", turn[i // each % 2])
        for i in range(n)
    ]
    return CELLS, block((0, 0, side * SITE, side * SITE), rows, components=cells)


BLOCKS = {
    late_row: (25000, 2), other_sites: (12500, 3), tower: (12500, 3), rows_at_one_height: (12500, 3), rows_on_one_another: (6250, 2),
    tall_site: (25000, 2), comb: (25000, 2), gaps: (25000, 2), comb_from_the_right: (50000, 1), columns: (500, 2), rows_outside: (12500, 3),
    plain: (50000, 2),
}
COMMAND = "legalise"
