"""LEF and DEF texts as records, for the tools of the folder above.

    text = Words(path)                       the words of a text, each with its line
    library = read_library(paths)            layers, sites, vias and macros, in millionths of a micron
    library = read_library(paths, profile)   the same in a profile: Profile(is_wide=True, drops_masks=True, soft='drop'), or NARROW
    library.at(units)                        the same in database units, of which `units` are a micron
    design = read_design(path, library)      the block that a DEF denotes, in its database units; read_design(path, library, profile) in a profile
    design.shapes()                          where its metal lies, and whose it is
    read_violations(path)                    the violations that `lefdef check` or `place-check` listed
    read_answer(path)                        whatever lefdef printed: its lines, violations, or the text of a design
    check(path, paths)                       the answer of `lefdef check`, which it runs on a DEF and its LEFs; also place_check, measure,
                                             legalise, route, flow, finish, print_design, and compare of two DEFs
    run(command, path, paths, options=[..])  the answer of any command, behind options such as --wide
    wiring_of(design.nets.values())          how long wires are, by layer, and how many vias there are
    tolerant.read_faults(path, paths)        everything in a DEF and its LEFs for which they are refused

The texts are those that lefdef reads, and they mean what docs/FORMATS.md and docs/RULES.md say. A text that they give no
meaning is refused (`Refused`), with its file, the line of the word at fault, and the reason; only the length of a text and
the number of its entries are not judged. Keywords are compared without regard to the case of their letters, names as they
are written.
"""
from .answers import Answer, NotRun, Refusal, check, compare, finish, flow, legalise, measure, place_check, print_design, read_answer, route, run
from .def_reader import read_design
from .design import Blockage, Component, Design, Net, Patch, Pin, Place, Port, Row, Segment, Shape, Tracks, ViaAt
from .lef_reader import read_library
from .library import Layer, Library, Macro, MacroPin, Rule, Site, Via
from .lines import FORMS, VIOLATION_LINES, Line, Violation, read_violations
from .notes import message_of
from .profile import NARROW, Profile
from .rects import ORIENTATIONS, TURNS, Rect, grown, least_box, meets, moved, ordered, turned
from .wiring import Wiring, wiring_of
from .words import Refused, Words, read_text, shown

__all__ = [
    'Answer', 'Blockage', 'Component', 'Design', 'FORMS', 'Layer', 'Library', 'Line', 'Macro', 'MacroPin', 'NARROW', 'Net', 'NotRun', 'ORIENTATIONS',
    'Patch', 'Pin', 'Place', 'Port', 'Profile', 'Rect', 'Refusal', 'Refused', 'Row', 'Rule', 'Segment', 'Shape', 'Site', 'TURNS', 'Tracks', 'VIOLATION_LINES',
    'Via', 'ViaAt', 'Violation', 'Wiring', 'Words', 'check', 'compare', 'finish', 'flow', 'grown', 'least_box', 'legalise', 'measure', 'meets',
    'message_of', 'moved', 'ordered', 'place_check', 'print_design', 'read_answer', 'read_design', 'read_library', 'read_text', 'read_violations',
    'route', 'run', 'shown', 'turned', 'wiring_of']
