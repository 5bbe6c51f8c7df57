"""The options by which a tool reads texts in the wide profile, as lefdef does (docs/FORMATS.md, "Profiles")."""
import argparse

from lefdef_text import Profile


class Once(argparse.Action):
    """An option that is given once at most."""

    def __call__(self, parser, asked, value, option=None):
        if getattr(asked, self.dest) != self.default:
            parser.error(f'{option} is given twice')
        setattr(asked, self.dest, True if self.nargs == 0 else value)


def add_options(parser):
    """Adds the options to a command line."""
    parser.add_argument('--wide', action=Once, nargs=0, default=False, help='read the texts in the wide profile')
    parser.add_argument('--masks', action=Once, choices=('drop',), help='with --wide: read a shape with a mask as if it had none')
    parser.add_argument('--soft', action=Once, choices=('drop', 'hard'),
                        help='with --wide: leave soft and partial placement blockages out, or read them as all others')


def profile_of(parser, asked):
    """Returns the profile that is asked for."""
    if not asked.wide:
        for option in ('masks', 'soft'):
            if getattr(asked, option):
                parser.error(f'--{option} needs --wide')
    return Profile(asked.wide, asked.masks == 'drop', asked.soft)
