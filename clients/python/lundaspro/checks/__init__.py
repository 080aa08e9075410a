"""For a learner's own code: does it slip where most do? Each check tries a function against the arena and says in a sentence what it found."""

from .collisions import check_collisions
from .draws import check_draw
from .pictures import check_picture
from .verdict import Verdict

__all__ = ["Verdict", "check_collisions", "check_draw", "check_picture"]
