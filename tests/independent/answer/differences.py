"""In which line two texts differ."""


def first_difference(wanted, got):
    """Returns in words the first line in which a text is another than the wanted one."""
    pairs = zip(wanted.split('\n') + ['(no more)'], got.split('\n') + ['(no more)'])
    for number, (ours, theirs) in enumerate(pairs, 1):
        if ours != theirs:
            return f'line {number}: {theirs!r} in place of {ours!r}'
    return 'none'
