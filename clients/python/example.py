"""python3 clients/python/example.py [SEED [BOOK]]: a random policy plays a match, which is written to a book and paged through. It trains nothing.

The book is a file that ./page shows too; where none is named it is written to a temporary one.
"""

import sys
import tempfile

import numpy

from lundaspro import Book, Environment, Setting, Weights

seed = int(sys.argv[1]) if len(sys.argv) > 1 else 1
setting = Setting(num_snakes=3, grid_size=6, initial_length=2, initial_food_count=3, max_ticks=100)
env = Environment(setting, Weights(food=1.0, loss=-1.0, kill=0.5, win=1.0))

policy = numpy.random.default_rng(seed)
observations, infos = env.reset(seed=seed)
earned = dict.fromkeys(env.possible_agents, 0.0)
while env.agents:
    # a learner would look at observations[agent]: five planes, turned so that the snake heads for the first row
    actions = {agent: int(policy.integers(3)) for agent in env.agents}
    observations, rewards, terminations, truncations, infos = env.step(actions)
    for agent, reward in rewards.items():
        earned[agent] += reward

with tempfile.TemporaryDirectory() as folder:
    path = sys.argv[2] if len(sys.argv) > 2 else f"{folder}/match.book"
    env.book().save(path)
    book = Book.open(path)
    for number, page in enumerate(book):
        print(f"page {number}, {page.due} due\n{page}\n")

print(f"over by {env.match.ending.name} after {env.match.moves} moves, places {env.match.places(setting)}, earned {earned}")
