"""All violations of a design, as lines."""
from . import connection, metal, placement, spacing


def violation_lines(design):
    """Returns the lines of all violations in order."""
    shapes = metal.metal(design)
    lines = placement.fault_lines(design, placement.faults(design))
    lines += spacing.fault_lines(design, shapes, spacing.faults(design, shapes))
    return lines + connection.fault_lines(design, connection.faults(design))
