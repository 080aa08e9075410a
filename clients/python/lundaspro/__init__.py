"""A snake arena whose every call is proved, for Python.

>>> from lundaspro import Action, Setting
>>> setting = Setting(num_snakes=2, grid_size=3, initial_length=1, initial_food_count=1)
>>> drawn = setting.initial_state().draw(1).next
>>> moved = drawn.step(setting, [Action.TurnLeft, Action.Forward])
>>> print(moved.next)
.A.
.a.
...
>>> moved.terminal, [str(event) for event in moved.events]
(True, ['akw', 'Ol'])

States, settings, events and matches are values that never change. What a call refuses is raised as `Refusal`, with number, sentence and word; what is no
value of its type at all, as half a snake, as a TypeError or ValueError before the library is called. Module `lend` has the calls over your own arrays.
"""

from . import lend
from .book import Book
from .checks import Verdict, check_collisions, check_draw, check_picture
from .environment import Environment
from .event import Cause, Event, Weights, reward
from .heading import Action, Heading, relative_to_absolute
from .lend import Hit
from .match import Ending, Match
from .matches import Matches, Moved
from .refusal import SENTENCES, Refusal
from .setting import Setting
from .space import action_space, observation_space
from .state import Actor, Draw, Snake, State, Step
from .unit import Generator, draw_by, outcome_of

__all__ = [
    "Action",
    "Actor",
    "Book",
    "Cause",
    "Draw",
    "Ending",
    "Environment",
    "Event",
    "Generator",
    "Heading",
    "Hit",
    "Match",
    "Matches",
    "Moved",
    "Refusal",
    "SENTENCES",
    "Setting",
    "Snake",
    "State",
    "Step",
    "Verdict",
    "Weights",
    "action_space",
    "check_collisions",
    "check_draw",
    "check_picture",
    "draw_by",
    "lend",
    "observation_space",
    "outcome_of",
    "relative_to_absolute",
    "reward",
]
