"""A learner's own engine, in plain Python: the right one, and one with each mistake that learners make planted in it."""

from __future__ import annotations

from lundaspro import Cause, Draw, Event, Snake, State, Step, relative_to_absolute
from lundaspro.checks.trials import state_of

MOVES = {0: (-1, 0), 1: (0, 1), 2: (1, 0), 3: (0, -1)}


def ahead(cell, heading, side):
    row, column = divmod(cell, side)
    down, right = MOVES[heading]
    return row + down, column + right


def flat(places, side):
    return tuple(row * side + column for row, column in places)


def step(state, setting, actions, slip=None):
    side = state.grid_size
    places = [[divmod(cell, side) for cell in snake.body] for snake in state.snakes]
    food = {divmod(cell, side) for cell in state.food}
    headings = [snake.heading for snake in state.snakes]
    living = [number for number, snake in enumerate(state.snakes) if snake.alive]
    before = [list(body) for body in places]
    for number in living:
        headings[number] = relative_to_absolute(headings[number], actions[number])
        places[number].insert(0, ahead(state.snakes[number].body[0], headings[number], side))
        if places[number][0] not in food or slip == "eater's tail":
            places[number].pop()
    causes = {number: cause(number, state, places, before, living, side, slip) for number in living}
    if slip == "one after another":
        gone = set()
        for number in living:
            left = [other for other in living if other not in gone]
            causes[number] = cause(number, state, places, before, left, side, slip)
            if causes[number] is not None:
                gone.add(number)
    if slip == "one of two heads":
        heads = [number for number in living if causes[number] == Cause.HeadOn]
        for number in heads[:1]:
            causes[number] = None
    dead = [number for number in living if causes[number] is not None]
    alive = [number for number in living if causes[number] is None]
    ate = [number for number in (living if slip == "dying eater" else alive) if places[number][0] in food]
    killers = {credited(number, places, alive if slip != "dead killer" else living) for number in dead if causes[number] == Cause.OppBody}
    eaten = {places[number][0] for number in ate}
    fatal = [places[number].pop(0) for number in dead]
    assert len(fatal) == len(dead)
    over, won, lost = ending(setting, places, alive, dead)
    if slip == "last alone" and not alive and len(dead) == 1:
        lost = lost | set(dead)
    drew = set(dead) if not alive and len(dead) > 1 else set()
    events = tuple(
        Event(i in ate, i in dead, causes.get(i), i in killers, i in won, i in lost, i in drew) for i in range(len(state.snakes))
    )
    snakes = [Snake(flat(places[i], side), headings[i], i in alive) for i in range(len(state.snakes))]
    due = 0 if over else len(ate)
    return Step(state_of(side, snakes, sorted(flat(food - eaten, side)), due), over, events)


def cause(number, state, places, before, living, side, slip):
    head = places[number][0]
    others = [other for other in living if other != number]
    if any(places[other][0] == head for other in others):
        return Cause.HeadOn
    if not (0 <= head[0] < side and 0 <= head[1] < side):
        return Cause.Wall
    bodies = {other: places[other] for other in others}
    if slip == "old tails":
        bodies = {other: before[other] for other in others}
    if slip == "moves in turn":
        bodies = {other: before[other] if other > number else places[other] for other in others}
    if slip == "corpses":
        bodies |= {other: places[other] for other, snake in enumerate(state.snakes) if not snake.alive}
    if slip == "swap":
        bodies = {other: body + before[other][:1] for other, body in bodies.items()}
    own = before[number] if slip == "own tail" else places[number][1:]
    if head in own:
        return Cause.SelfBody
    return Cause.OppBody if any(head in body for body in bodies.values()) else None


def credited(victim, places, candidates):
    return next((other for other in candidates if other != victim and places[victim][0] in places[other]), None)


def ending(setting, places, alive, dead):
    won, lost = set(), set()
    if len(alive) == 1 and dead:
        won = set(alive)
    if alive:
        lost = set(dead)
    over = len(alive) <= (0 if setting.play_to_last else 1)
    lead = setting.win_food_lead
    if not over and lead is not None and len(alive) == 2:
        long, short = sorted(alive, key=lambda i: -len(places[i]))
        if len(places[long]) - len(places[short]) >= lead:
            return True, won | {long}, lost | {short}
    return over, won, lost


def draw(state, index, slip=None):
    taken = {cell for snake in state.snakes if slip != "corpses" or snake.alive for cell in snake.body} | set(state.food)
    free = [cell for cell in range(state.grid_size**2) if cell not in taken]
    birth = bool(state.words[3])
    count = min(1 if birth else state.due, len(free))
    if slip == "first alone":
        count = min(count, 1)
    bases = [len(free) - k for k in range(count)]
    digits = []
    for base in bases if slip == "other end" else bases[::-1]:
        index, digit = divmod(index, base)
        digits.append(digit)
    if slip != "other end":
        digits.reverse()
    left, cells = list(free), []
    for digit in digits:
        cells.append(left[digit])
        if slip != "two throws":
            left.pop(digit)
    if slip == "sorted":
        cells.sort()
    return cells


def drawn(state, index):
    """The whole answer of the right one."""
    cells = draw(state, index)
    words = state.words.tolist()
    food = sorted([*state.food, *cells])
    left = words[2] - 1 if words[3] and cells else 0
    return Draw(State([*words[:2], left, int(left > 0 and words[3]), len(food), *words[5 : len(words) - words[4]], *food]), tuple(cells))
