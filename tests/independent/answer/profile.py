"""The profile in which a text is read, as the options before the command say it."""
from typing import NamedTuple, Optional


class Profile(NamedTuple):
    """A profile: the wide one takes more forms; drops_masks is whether masks have no effect, and soft is 'drop', 'hard' or None."""
    wide: bool = False
    drops_masks: bool = False
    soft: Optional[str] = None


NARROW = Profile()
