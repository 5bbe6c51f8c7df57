"""How far a component is from the sites of the rows that there are for it."""
from lefdef_text import Row

MIRRORED = {'N': 'FN', 'FN': 'N', 'S': 'FS', 'FS': 'S'}


def does_fit(row, component):
    """Returns whether the orientation of a component fits a row: the row's own does, and its mirror image where the macro has SYMMETRY Y."""
    orientation = component.place.orientation
    return orientation == row.orientation or component.macro.has_y_symmetry and MIRRORED.get(orientation) == row.orientation


class Sites:
    """The rows of a design by their sites."""

    def __init__(self, design):
        self.design, self.rows = design, {}
        for row in design.rows:
            self.rows.setdefault(row.site, []).append(row)

    def words(self, component):
        """Returns how far a placed component is from the nearest sites for it, or why there are none; None where it is on its sites."""
        macro, box = component.macro, self.design.box(component)
        site, rows = self.design.library.sites.get(macro.site), self.rows.get(macro.site)
        if macro.site is None:
            return None
        if not rows:
            return f'no row has the site {macro.site}'
        width, height = box.x2 - box.x1, box.y2 - box.y1
        if height != site.height:
            return f'it is {height} high, and the site {macro.site} is {site.height}'
        if width % site.width:
            return f'it is {width} wide, which is no whole number of sites of {site.width}'
        rows = [row for row in rows if row.count * site.width >= width]
        if not rows:
            return f'it is {width} wide, and no row of its site is as long'
        return min((self.distance(row, component, width // site.width, site.width) for row in rows))[-1]

    def distance(self, row, component, count, step):
        """Returns how far a component of so many sites is from the nearest sites of a row, and that in words, None where it is on them."""
        x, y, orientation = component.place
        place = max(min((2 * (x - row.x) + step) // (2 * step), row.count - count), 0)
        dx, dy = x - (row.x + place * step), y - row.y
        is_off = not does_fit(row, component)
        words = distance_words(row, dx, dy, abs(dx) * 2 > step)
        if is_off:
            why = f'{row.name} is {row.orientation}, which {orientation} does not fit'
            words = f'{words}; {why}' if words else why
        return abs(dx) + abs(dy), is_off, row.y, row.x, words or ''


def distance_words(row: Row, dx, dy, is_beyond):
    """Returns how far to the right and above of a row's sites a component is, in words, or '' where it is on them."""
    across = f'{abs(dx)} {"right" if dx > 0 else "left"} of {"the end of" if is_beyond else "a site of"} {row.name}' if dx else ''
    along = f'{abs(dy)} {"above" if dy > 0 else "below"} {"it" if dx else row.name}' if dy else ''
    return ', '.join(filter(None, (across, along)))
