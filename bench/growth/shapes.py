"""The shapes of blocks that can be made, by name."""
from dataclasses import dataclass
from typing import Callable

import check_blocks
import legalise_blocks
import route_blocks


@dataclass(frozen=True)
class Shape:
    """A shape of blocks: what there are N of, its command, its texts by N, the first N that is timed, and how often it doubles."""

    about: str
    command: str
    texts: Callable[[int], tuple[str, str]]
    first: int
    doublings: int


def shapes_of(module):
    commands = getattr(module, "COMMANDS", {})
    for texts, (first, doublings) in module.BLOCKS.items():
        yield texts.__name__, Shape(texts.__doc__, commands.get(texts, module.COMMAND), texts, first, doublings)


SHAPES = dict(it for module in (route_blocks, legalise_blocks, check_blocks) for it in shapes_of(module))


def write(name, count, folder):
    """Writes the texts of a block of this shape to the folder."""
    lef, text = SHAPES[name].texts(count)
    if not lef.endswith("END LIBRARY\n"):
        lef += "END LIBRARY\n"
    folder.mkdir(parents=True, exist_ok=True)
    (folder / "block.lef").write_text(lef, encoding="utf-8")
    (folder / "block.def").write_text(text, encoding="utf-8")
