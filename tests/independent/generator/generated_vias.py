"""Makes the clauses of generated vias."""
from .wide_forms import has

DIGITS = '0123456789ABCDEFabcdef'


def generated_clauses(dice, plan, names, number, count=None):
    """Returns the clauses of a generated via on the layers of these names, in any order; number is how numbers of units are written, and count how
    other whole numbers are, if it is in another way."""
    unit = max(1, plan.pitch // 8)
    rows, columns = dice.one_of(((1, 1), (1, dice.between(1, 4)), (dice.between(1, 4), 1), (dice.between(1, 4), dice.between(1, 9))))
    (width, across), (height, up) = (even_whole(count, dice.between(1, unit), dice.between(0, unit)) for count in (columns, rows))

    def clause(word, *values):
        return ' '.join([f'+ {word}', *map(number, values)])
    clauses = ['+ VIARULE any', clause('CUTSIZE', width, height), f'+ LAYERS {" ".join(names)}', clause('CUTSPACING', across, up),
               clause('ENCLOSURE', *(dice.between(0, unit) for _ in range(4)))]
    if rows * columns > 1 or dice.chance(0.3):
        clauses.append(' '.join(['+ ROWCOL', *map(count or number, (rows, columns))]))
    if dice.chance(0.2):
        clauses.append(clause('ORIGIN', *(dice.between(-unit, unit) for _ in range(2))))
    if dice.chance(0.2):
        clauses.append(clause('OFFSET', *(dice.between(-unit, unit) for _ in range(4))))
    if has(dice, 'pattern', 0.3):
        clauses.append(f'+ PATTERN {pattern(dice, rows, columns)}')
    if dice.chance(0.1):
        clauses.append('+ ANY words ( 1 2 )')
    return dice.shuffled(clauses)


def even_whole(count, cut, space):
    """Returns the side of cuts and the space between them, so that count of them together have an even length; one of the two may be one more."""
    if (count * cut + (count - 1) * space) % 2 == 0:
        return cut, space
    return (cut + 1, space) if count % 2 else (cut, space + 1)


def pattern(dice, rows, columns):
    """Returns a pattern for about so many rows and columns."""
    groups, left = [], rows + dice.between(-1, 1)
    while left > 0 or not groups:
        count = dice.between(1, max(1, left))
        groups.append(f'{dice.one_of(("{:x}", "{:X}", "0{:x}")).format(count)}_{row_of(dice, columns)}')
        left -= count
    return '_'.join(groups)


def row_of(dice, columns):
    """Returns the digits of a row."""
    items = []
    for _ in range(max(1, (columns + 3) // 4 + dice.between(-1, 1))):
        items.append((f'R{dice.between(1, 3)}' if dice.chance(0.2) else '') + dice.one_of(DIGITS))
    return ''.join(items)
