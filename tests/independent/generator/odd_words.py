"""Odd names and odd white space in texts."""

# Names with a number; none is a mark.
NAMES = ('a/b[{}]', 'x"y{}', 'n#{}', '-{}', '+{}', '({}', '{}', 'é{}', 'END{}', 'u;{}', '*{}')
# Names that are keywords elsewhere.
KEYWORDS = ('END', 'PLACED', 'NETS', 'N', 'NEW', 'RECT', '+x', 'DESIGN')
WHITE = ('\n', '\t', '  ', '\r\n', '\f', '\v', '\n\n')


def odd_name(dice, number):
    """Returns a name for the item with this number, another one for each number."""
    if number < len(KEYWORDS) and dice.chance(0.3):
        return KEYWORDS[number]
    return dice.one_of(NAMES).format(number)


def respaced(dice, odd, text):
    """Returns a text with other white space in so many cases of 1: more of it, none before a semicolon, and comments."""
    return '\n'.join(respaced_line(dice, odd, line) for line in text.split('\n')) if odd else text


def respaced_line(dice, odd, line):
    """Returns a line with other white space; one that may have a comment or a quoted word stays as it is."""
    if '#' in line or '"' in line:
        return line
    first, *words = line.split(' ')
    parts = [first]
    for word in words:
        if word == ';' and parts[-1] and not parts[-1].endswith(';') and dice.chance(odd):
            parts.append(';')
        else:
            parts += [dice.one_of(WHITE) if dice.chance(odd / 8) else ' ', word]
    return ''.join(parts) + (' # ; END "' if dice.chance(odd / 8) else '')
