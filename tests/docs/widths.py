"""Measures the lines of sources.

    for line, width in wide(path, text, most):     each line of a .rt or .antt that is wider than this, by its number

The width of a line is its length without the text inside quotation marks: no blank can be put into a word that stands there. Imports, the
lemmas that an attribute `tactic` names and what a line `unfolding` names may be as wide as they are: they have to be in one line.
"""
import re

IN_ONE_LINE = re.compile(r"\s*(?:(?:pub(?:\([a-z]+\))? )?(?:ghost )?use |#!?\[tactic\(|unfolding )")
# A comment, or a literal with the text inside its quotation marks.
RUST = re.compile(r"""//[^\n]*|\bb?r(?P<hashes>#*)"(?P<raw>.*?)"(?P=hashes)|"(?P<text>(?:\\.|[^"\\])*)"|'(?P<letter>\\x[0-9a-fA-F]{2}|\\.|[^'\\\n])'""", re.DOTALL)
ANTT = re.compile(r"""(?<![^\s(){}.;,@])--(?: [^\n]*)?$|"(?P<text>(?:\\.|[^"\\\n])*)\"""", re.MULTILINE)


def without_texts(path, text):
    """Returns the text of a source without that inside quotation marks, in as many lines."""
    def bare(found):
        inner = next((it for it in found.groupdict().items() if it[0] != "hashes" and it[1] is not None), None)
        if not inner:
            return found[0]
        at, end = found.start(inner[0]) - found.start(), found.end(inner[0]) - found.start()
        return found[0][:at] + "\n" * inner[1].count("\n") + found[0][end:]

    return (RUST if path.endswith(".rt") else ANTT).sub(bare, text)


def wide(path, text, most):
    for number, line in enumerate(without_texts(path, text).splitlines(), 1):
        if len(line) > most and not IN_ONE_LINE.match(line):
            yield number, len(line)
