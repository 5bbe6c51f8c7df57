"""The profile in which texts are read (docs/FORMATS.md, "Profiles")."""
from typing import NamedTuple, Optional


class Profile(NamedTuple):
    """A profile: the wide one takes more forms than the narrow one; drops_masks is whether masks have no effect, and soft what becomes of
    placement blockages that are soft or partial, 'drop' or 'hard', or None where they are refused."""
    is_wide: bool = False
    drops_masks: bool = False
    soft: Optional[str] = None

    def options(self):
        """Returns the words that ask lefdef for the profile."""
        words = ['--wide'] if self.is_wide else []
        words += ['--masks', 'drop'] if self.drops_masks else []
        return words + (['--soft', self.soft] if self.soft else [])


NARROW = Profile()
