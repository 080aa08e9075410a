"""A match as an environment for learners, in the parallel style: reset and step over dicts of agents."""

from __future__ import annotations

from collections.abc import Mapping
from typing import Any

import numpy as np

from .book import Book
from .event import Weights, reward
from .lend import Planes
from .match import Match
from .refusal import Refusal
from .setting import Setting
from .space import Box, Discrete, action_space, observation_space
from .state import State, Step
from .unit import Generator, draw_by

Infos = dict[str, dict[str, Any]]


class Environment:
    """One match after another, with PettingZoo's parallel interface.

    Agents `snake_0`, `snake_1` and so on act at once while they live; apples are drawn in between, by unit numbers of the generator: the one that is given
    or, after `reset(seed=..)`, numpy's of that seed. A death, and the end by the rules, terminates; max_ticks truncates. An info has the agent's `event`, and
    at the end of the match its `place`.

    >>> import numpy
    >>> from lundaspro import Setting, Weights
    >>> setting = Setting(num_snakes=2, grid_size=5, initial_length=1, initial_food_count=1, max_ticks=50)
    >>> env = Environment(setting, Weights(food=1.0, loss=-1.0), numpy.random.default_rng(7))
    >>> observations, infos = env.reset()
    >>> while env.agents:
    ...     observations, rewards, terminations, truncations, infos = env.step({agent: 0 for agent in env.agents})
    >>> rewards, [str(info["event"]) for info in infos.values()]
    ({'snake_0': -1.0, 'snake_1': 0.0}, ['Wl', 'w'])
    """

    metadata: dict[str, Any] = {"name": "lundaspro_v0", "render_modes": ["ansi"], "is_parallelizable": True}

    def __init__(self, setting: Setting, weights: Weights = Weights(), generator: Generator | None = None, render_mode: str | None = None) -> None:
        """Refusals 1 to 12."""
        setting.validate()
        self.setting = setting
        self.weights = weights
        self.generator = generator
        self.render_mode = render_mode
        self.possible_agents = [f"snake_{number}" for number in range(setting.num_snakes)]
        self.agents: list[str] = []
        # every state of the match since its start, as a book has them, and the match so far
        self.pages: list[State] = []
        self.match = Match()
        self._observation_spaces = {agent: observation_space(setting.grid_size) for agent in self.possible_agents}
        self._action_spaces = {agent: action_space() for agent in self.possible_agents}

    def observation_space(self, agent: str) -> Box:
        """Five planes, the same object each time.

        >>> Environment(Setting(2, 7, 1)).observation_space("snake_0").shape
        (5, 7, 7)
        """
        return self._observation_spaces[agent]

    def action_space(self, agent: str) -> Discrete:
        """The actions 0 forward, 1 left, 2 right, the same object each time.

        >>> int(Environment(Setting(2, 7, 1)).action_space("snake_0").n)
        3
        """
        return self._action_spaces[agent]

    @property
    def num_agents(self) -> int:
        """How many agents act.

        >>> Environment(Setting(2, 3, 1)).num_agents
        0
        """
        return len(self.agents)

    @property
    def max_num_agents(self) -> int:
        """How many act at the start.

        >>> Environment(Setting(2, 3, 1)).max_num_agents
        2
        """
        return len(self.possible_agents)

    @property
    def unwrapped(self) -> Environment:
        """Itself.

        >>> env = Environment(Setting(2, 3, 1))
        >>> env.unwrapped is env
        True
        """
        return self

    @property
    def state_now(self) -> State:
        """The state that the agents act on.

        >>> env = Environment(Setting(2, 3, 1))
        >>> _ = env.reset()
        >>> env.state_now.num_snakes
        2
        """
        if not self.pages:
            raise ValueError("no match has begun: reset begins one")
        return self.pages[-1]

    def reset(self, seed: int | None = None, options: Mapping[str, Any] | None = None) -> tuple[dict[str, Planes], Infos]:
        """Begins a match: what each agent sees, and an empty info each. `seed` gives numpy's generator anew; there are no options.

        >>> env = Environment(Setting(2, 3, 1, initial_food_count=1))
        >>> observations, infos = env.reset(seed=1)
        >>> sorted(observations), env.state_now.food
        (['snake_0', 'snake_1'], (3,))
        """
        if seed is not None:
            self.generator = np.random.default_rng(seed)
        self.match = Match()
        self.pages = [self.setting.initial_state()]
        self._draw()
        self.agents = list(self.possible_agents)
        return self._observations(), {agent: {} for agent in self.agents}

    def step(self, actions: Mapping[str, int]) -> tuple[dict[str, Planes], dict[str, float], dict[str, bool], dict[str, bool], Infos]:
        """One move of the agents that live, each with its action; whoever has ended is in the answer once more and then no longer in `agents`. Refusals 25, 33.

        >>> env = Environment(Setting(2, 3, 1))
        >>> _ = env.reset()
        >>> observations, rewards, terminations, truncations, infos = env.step({"snake_0": 1, "snake_1": 2})
        >>> terminations, str(infos["snake_0"]["event"])
        ({'snake_0': False, 'snake_1': False}, '-')
        """
        if self.match.over:
            raise Refusal(33)
        if set(actions) != set(self.agents):
            raise ValueError(f"actions of {sorted(actions)}, and it is the turn of {self.agents}")
        moves = [actions.get(agent, 0) for agent in self.possible_agents]
        self.match, step = self.match.take_move(self.setting, self.state_now.step(self.setting, moves))
        self.pages.append(step.next)
        self._draw()
        told = self._told(step)
        self.agents = [agent for agent in self.agents if not (told[1][agent] or told[2][agent])]
        return (self._observations(told[0]), *told)

    # rewards, terminations, truncations and infos of the agents that moved
    def _told(self, step: Step) -> tuple[dict[str, float], dict[str, bool], dict[str, bool], Infos]:
        events = {agent: event for agent, event in zip(self.possible_agents, step.events) if agent in self.agents}
        rewards = {agent: reward(self.weights, event) for agent, event in events.items()}
        terminations = {agent: event.died or step.terminal for agent, event in events.items()}
        truncations = {agent: event.survived_to_max_ticks for agent, event in events.items()}
        infos: Infos = {agent: {"event": event} for agent, event in events.items()}
        if self.match.over:
            places = dict(zip(self.possible_agents, self.match.places(self.setting)))
            for agent, info in infos.items():
                info["place"] = places[agent]
        return rewards, terminations, truncations, infos

    # all that is due; what is over draws no more
    def _draw(self) -> None:
        while self.state_now.due and not self.match.over:
            if self.generator is None:
                raise ValueError("no generator to draw by: give one, or reset by a seed")
            self.pages.append(draw_by(self.state_now, self.generator).next)

    def _observations(self, agents: Mapping[str, Any] | None = None) -> dict[str, Planes]:
        shown = self.agents if agents is None else agents
        return {agent: self.state_now.observe(number) for number, agent in enumerate(self.possible_agents) if agent in shown}

    def book(self) -> Book:
        """The match so far as a book, a page for each state. Refusal 42 above 65,535 pages.

        >>> env = Environment(Setting(2, 3, 1, initial_food_count=1))
        >>> _ = env.reset(seed=1)
        >>> [page.due for page in env.book()]
        [1, 0]
        """
        return Book.write(self.setting, self.pages)

    def render(self) -> str | None:
        """The board as text where the render mode is `ansi`.

        >>> env = Environment(Setting(2, 3, 1, initial_food_count=1), render_mode="ansi")
        >>> _ = env.reset(seed=1)
        >>> print(env.render().splitlines()[1])
        *AB
        """
        return str(self.state_now) if self.render_mode == "ansi" else None

    def close(self) -> None:
        """Nothing is held open.

        >>> Environment(Setting(2, 3, 1)).close()
        """
