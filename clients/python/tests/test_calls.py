"""What the stored calls of the probe cannot show: values of the wrong type, arrays after a refusal, values that never change, books in files."""

import copy
import os
import pickle
import tempfile
import threading
import unittest

import numpy as np

from lundaspro import (
    SENTENCES,
    Action,
    Actor,
    Book,
    Cause,
    Ending,
    Event,
    Heading,
    Hit,
    Match,
    Refusal,
    Setting,
    Snake,
    State,
    Weights,
    draw_by,
    lend,
    observation_space,
    outcome_of,
    relative_to_absolute,
    reward,
)

SETTING = Setting(num_snakes=2, grid_size=3, initial_length=1)
FED = Setting(num_snakes=2, grid_size=3, initial_length=1, initial_food_count=1)
# grid 3: a living snake on 4, heading up, and a dead one without a cell; in the second one apple is due
IMAGE = np.array([2, 3, 0, 0, 0, 13, 1, 0, 1, 14, 0, 0, 0, 4], np.uint16)
DUE = np.array([2, 3, 1, 0, 0, 13, 1, 0, 1, 14, 0, 0, 0, 4], np.uint16)


class Case(unittest.TestCase):
    def refused(self, number, call, *arguments, word=None):
        with self.assertRaises(Refusal) as caught:
            call(*arguments)
        shown = "" if word is None else f"word {word}: "
        refusal = caught.exception
        self.assertEqual((refusal.number, refusal.word, str(refusal)), (number, word, f"refusal {number}: {shown}{SENTENCES[number]}"))


class Values(Case):
    def test_state(self):
        start = FED.initial_state()
        state = start.draw(2).next
        self.assertEqual(state.words.tolist(), [2, 3, 0, 0, 1, 13, 1, 1, 1, 14, 1, 3, 1, 4, 5, 2])
        self.assertEqual(state.snakes, (Snake((4,), Heading.Right, True), Snake((5,), Heading.Left, True)))
        self.assertEqual((state.food, state.due, state.num_snakes, state.grid_size), ((2,), 0, 2, 3))
        self.assertEqual((start.actor(), state.actor()), (Actor.Chance, Actor.Simultaneous))
        self.assertEqual(str(state), "..*\n.AB\n...")
        self.assertEqual(eval(repr(state)), state)
        for twin in (State(state.words), State(state.words.tolist()), State.from_bytes(bytes(state)), copy.deepcopy(state), pickle.loads(pickle.dumps(state))):
            self.assertEqual((twin, hash(twin)), (state, hash(state)))
        self.assertNotEqual(state, start)
        self.assertNotEqual(state, bytes(state))

    def test_nothing_changes_a_state(self):
        state = FED.initial_state()
        before = bytes(state)
        with self.assertRaises(AttributeError):
            state._data = b""
        with self.assertRaises(AttributeError):
            state.food = ()
        with self.assertRaises(AttributeError):
            del state._data
        with self.assertRaises(ValueError):
            state.words[0] = 3
        with self.assertRaises(ValueError):
            state.words.flags.writeable = True
        self.assertEqual(bytes(state), before)
        mine = state.words.copy()
        made = State(mine)
        mine[0] = 9
        self.assertEqual(made, state)

    def test_dead_and_cellless(self):
        state = State(IMAGE)
        self.assertEqual((state.snakes[1].head, state.snakes[1].alive, str(state)), (None, False, "...\n.A.\n..."))
        self.assertEqual([state.legal_actions(0), state.legal_actions(1)], [tuple(Action), ()])
        self.assertIsNone(state.length_cell())
        corpses = State([3, 2, 0, 0, 1, 17, 2, 0, 0, 19, 1, 0, 1, 20, 2, 0, 1, 0, 1, 1, 3, 2, 0])
        self.assertEqual(str(corpses), "0B\ncC")
        # where bodies lie on one cell the lower number is shown, of corpses too
        crossed = State([4, 2, 0, 0, 0, 21, 2, 0, 1, 23, 2, 0, 1, 25, 1, 0, 0, 26, 1, 0, 0, 0, 1, 2, 1, 3, 3])
        self.assertEqual(str(crossed), "Aa\nB2")

    def test_no_image(self):
        words = FED.initial_state().words
        for cut in range(len(words)):
            self.refused(50 if cut < 13 else 53, State, words[:cut], word=cut)
            self.refused(50 if cut < 13 else 53, State.from_bytes, words[:cut].tobytes(), word=cut)
        for wrong, error in ((IMAGE.astype(np.int64), TypeError), ([0.5], TypeError), ([-1], ValueError), ([65536], ValueError), (7, TypeError)):
            with self.assertRaises(error):
                State(wrong)
        with self.assertRaises(ValueError):
            State.from_bytes(b"\x02")

    def test_records(self):
        for value in (SETTING, Event(died=True, death_cause=Cause.Wall), Weights(win=2.0), Match(moves=3), Refusal(51, 3)):
            twin = pickle.loads(pickle.dumps(value))
            self.assertEqual(str(twin), str(value))
        self.assertEqual(len({SETTING, copy.copy(SETTING), FED}), 2)
        self.assertEqual(Setting(np.int64(2), np.int8(3), np.uint16(1), np.bool_(False)), SETTING)
        self.assertEqual(reward(Weights(food=np.float32(0.5)), Event(ate_food=np.bool_(True))), 0.5)
        for cause in (None, *Cause):
            event = Event(death_cause=cause, lost=True)
            self.assertEqual(Event.from_bytes(bytes(event)), event)
        self.assertEqual([str(Event(death_cause=cause)) for cause in Cause], ["W", "S", "O", "H"])
        self.assertEqual(str(Event(True, False, None, True, True, True, True, True)), "akwlxy")

    def test_of_the_wrong_type(self):
        for name in ("num_snakes", "initial_length", "initial_food_count", "win_food_lead", "max_ticks"):
            for value, error in ((-1, ValueError), (1 << 64, ValueError), (0.5, TypeError), ("2", TypeError)):
                with self.assertRaises(error):
                    Setting(**{"num_snakes": 2, "grid_size": 3, "initial_length": 1, name: value})
        for value in (0, 1, None, "no"):
            with self.assertRaises(TypeError):
                Setting(2, 3, 1, play_to_last=value)
            with self.assertRaises(TypeError):
                Event(died=value)
        for wrong in ("W", 5, True and 9):
            with self.assertRaises(ValueError):
                Event(death_cause=wrong)
        for call in (lambda: Weights(win="1"), lambda: Weights(win=None), lambda: outcome_of(3, "0.5"), lambda: outcome_of(0.5, 0.5), lambda: Setting(2, None, 1)):
            with self.assertRaises(TypeError):
                call()
        for call in (lambda: outcome_of(-1, 0.5), lambda: State(DUE).draw(-1), lambda: State(DUE).draw(1 << 64), lambda: State(IMAGE).observe(-1)):
            with self.assertRaises(ValueError):
                call()
        with self.assertRaises(ValueError):
            relative_to_absolute(4, 0)

    def test_grids(self):
        for grid_size in (33, 1 << 31, (1 << 32) + 3, (1 << 64) + 3, -(1 << 31) - 1, -(1 << 64) + 3):
            self.refused(5, Setting(2, grid_size, 1).validate)
            self.refused(5, observation_space, grid_size)
        self.refused(10, Setting(2, -1, 1).validate)
        self.refused(6, Setting(2, -(1 << 31), 1, initial_food_count=1).validate)
        self.refused(5, observation_space, 0)

    def test_refusals(self):
        self.refused(3, Setting(2, 3, 1, win_food_lead=0).validate)
        self.refused(4, Setting(3, 9, 1, win_food_lead=(1 << 64) - 1).validate)
        self.refused(12, Setting(2, 3, 1, initial_food_count=8).initial_state)
        image, due = State(IMAGE), State(DUE)
        self.refused(24, image.step, SETTING, [0])
        self.refused(25, image.step, SETTING, [(1 << 64) - 1, 0])
        self.refused(25, image.struck, SETTING, [3, 0])
        self.refused(22, due.step, SETTING, [0, 0])
        self.refused(21, image.step, Setting(2, 4, 1), [0, 0])
        self.refused(23, image.count)
        self.refused(27, due.draw, 8)
        self.refused(30, due.rank, [4])
        self.refused(26, image.observe, 2)
        self.refused(26, image.legal_actions, 2)
        self.refused(26, image.truncation, 2, Event())
        for step in (float("inf"), -float("inf"), float("nan")):
            self.refused(31, reward, Weights(step=step), Event())
        for u in (1.0, -0.5, -5e-324, float("inf"), float("nan")):
            self.refused(81, outcome_of, 3, u)
            self.refused(80, outcome_of, 0, u)
        self.refused(80, outcome_of, 2**53 + 1, 0.5)

    def test_answers(self):
        self.assertEqual([outcome_of(3, 1 / 3), outcome_of(3, -0.0), outcome_of(2**53, 1 - 2**-53)], [1, 0, 2**53 - 1])
        self.assertEqual([[relative_to_absolute(h, a).name[0] for a in Action] for h in Heading], [list("ULR"), list("RUD"), list("DRL"), list("LDU")])
        both = State([2, 5, 0, 0, 0, 13, 1, 1, 1, 14, 2, 3, 1, 7, 8, 9])
        self.assertEqual(both.struck(Setting(2, 5, 1), [0, 0]), (Hit(1, 1), None))
        self.assertEqual(str(State(IMAGE).truncation(0, Event(ate_food=True))), "ay")
        full = State([2, 5, 1024, 0, 0, 13, 5, 0, 1, 18, 1, 0, 1, 0, 1, 2, 3, 4, 0])
        self.assertEqual(full.count(), 2432902008176640000)
        self.assertEqual(full.draw(2432902008176639999).cells, tuple(range(24, 4, -1)))
        for index in range(8):
            self.assertEqual(State(DUE).rank(State(DUE).draw(index).cells), index)
        last = np.random.default_rng(1)
        self.assertEqual(draw_by(State(DUE), last).cells, State(DUE).draw(outcome_of(8, np.random.default_rng(1).random())).cells)


class Lent(Case):
    def test_a_refusal_writes_nothing(self):
        words, cells, planes = np.full(20, 9, np.uint16), np.full(20, 9, np.uint16), np.full(50, 9, np.float32)
        self.refused(29, lend.initial_state, SETTING, words[:14])
        self.refused(29, lend.step, SETTING, IMAGE, [0, 7], words[:13])
        self.refused(25, lend.step, SETTING, IMAGE, [3, 0], words)
        self.refused(29, lend.draw, DUE, 0, words[:14], cells)
        self.refused(29, lend.draw, DUE, 0, words, cells[:0])
        self.refused(29, lend.observe, IMAGE, 0, planes[:44])
        self.refused(50, lend.step, SETTING, IMAGE[1:], [0, 0], words, word=13)
        still = np.full(20, 9, np.uint16)
        still.flags.writeable = False
        for wrong in (still, words[::2], words.astype(np.int16), list(words), words.astype(np.uint32)):
            with self.assertRaises(TypeError):
                lend.initial_state(SETTING, wrong)
        with self.assertRaises(TypeError):
            lend.observe(IMAGE, 0, np.zeros(45))
        with self.assertRaises(TypeError):
            lend.count(IMAGE[::2])
        self.assertTrue((words == 9).all() and (cells == 9).all() and (planes == 9).all())

    def test_an_answer_writes_its_own_part(self):
        words, cells, planes = np.full(20, 9, np.uint16), np.full(20, 9, np.uint16), np.full(50, 9, np.float32)
        self.assertEqual(lend.draw(DUE, 7, words, cells), (15, 1))
        self.assertEqual((words[15:].tolist(), cells.tolist()), ([9] * 5, [8] + [9] * 19))
        self.assertEqual((lend.observe(IMAGE, 0, planes), planes[45:].tolist()), (45, [9.0] * 5))

    def test_what_is_written_lies_apart(self):
        own, planes = np.concatenate([IMAGE, IMAGE]), np.zeros(50, np.float32)
        lying = planes.view(np.uint16)[: len(DUE)]
        lying[:] = DUE
        before = own.copy()
        for call in (
            lambda: lend.step(SETTING, own[:14], [0, 0], own),
            lambda: lend.step(SETTING, own[:14], [0, 0], own[13:]),
            lambda: lend.draw(lying, 0, own, lying),
            lambda: lend.draw(DUE, 0, own, own[20:]),
            lambda: lend.draw(lying, 0, lying, own),
            lambda: lend.observe(lying, 0, planes),
            lambda: lend.write_book(SETTING, 1, own[:14], own),
        ):
            with self.assertRaises(ValueError):
                call()
        self.assertTrue((own == before).all() and (lying == DUE).all())
        self.assertEqual(lend.step(SETTING, own[:14], [0, 0], own[14:])[0], 14)

    def test_observed_without_a_copy(self):
        state = State(IMAGE)
        seen = state.observe(0)
        self.assertEqual((seen.dtype, seen.shape), (np.float32, (5, 3, 3)))
        into = np.full((2, 5, 3, 3), 9, np.float32)
        view = state.observe(0, into[1])
        self.assertTrue(np.shares_memory(view, into) and (into[1] == seen).all() and (into[0] == 9).all())
        self.refused(29, state.observe, 0, into[0, :4].reshape(-1))
        self.assertTrue((into[0] == 9).all())


class Matched(Case):
    def test_match(self):
        short = Setting(2, 5, 1, max_ticks=1)
        state = short.initial_state()
        step = state.step(short, [0, 0])
        match, marked = Match().take_move(short, step)
        self.assertEqual((Match(), [str(event) for event in step.events]), (Match(), ["-", "-"]))
        self.assertEqual((match, match.ending), (Match(moves=1, over=True, timeout=True), Ending.MaxTicks))
        self.assertEqual([str(event) for event in marked.events], ["y", "y"])
        self.assertEqual(marked.events, tuple(step.next.truncation(agent, event) for agent, event in enumerate(step.events)))
        self.refused(33, match.take_move, short, step)
        behind = (False, True) + (False,) * 6
        self.assertEqual(Match(1, True, False, behind=behind).ending, Ending.Lead)
        self.assertEqual(Match(1, True, False, behind=behind).places(short), (1, 2))
        late = Match(moves=(1 << 64) - 1, deaths=((1 << 64) - 1,) + (0,) * 7)
        self.assertEqual((late.take_move(SETTING, SETTING.initial_state().step(SETTING, [0, 0]))[0], late.places(SETTING)), (late, (2, 1)))
        for wrong, error in ((Match(moves=-1), ValueError), (Match(over=1), TypeError), (Match(deaths=(0,)), ValueError), (Match(behind=(0,) * 8), TypeError)):
            with self.assertRaises(error):
                wrong.places(SETTING)


class Books(Case):
    def setUp(self):
        start = FED.initial_state()
        self.states = [start, start.draw(2).next, start.draw(2).next.step(FED, [0, 0]).next]
        self.book = Book.write(FED, self.states)

    def test_sequence(self):
        book = self.book
        self.assertEqual((len(book), list(book), list(reversed(book))), (3, self.states, self.states[::-1]))
        self.assertEqual((book[-1], book[1:], book[::2], self.states[1] in book, book.index(self.states[2])), (self.states[2], self.states[1:], self.states[::2], True, 2))
        for at in (3, -4, 1 << 64):
            with self.assertRaises(IndexError):
                book[at]
        self.refused(41, book.page, 3)
        self.refused(41, book.page, (1 << 64) - 1)
        self.assertEqual(len(Book.write(FED, [])), 0)

    def test_read_lazily(self):
        words = np.frombuffer(bytes(self.book), np.uint16).copy()
        start, _ = lend.page(words, 1)
        words[start] = 9
        damaged = Book(words)
        self.assertEqual((damaged[0], damaged[2]), (self.states[0], self.states[2]))
        self.refused(51, damaged.page, 1, word=0)

    def test_contents(self):
        for cut in (0, 1, 16, 20):
            self.refused(40, Book, bytes(self.book)[: 2 * cut])
        self.refused(21, Book.write, Setting(2, 4, 1), self.states)
        self.refused(1, Book.write, Setting(9, 3, 1), self.states)
        self.refused(42, Book.write, FED, [self.states[0]] * 65536)
        with self.assertRaises(ValueError):
            Book(b"\x01")

    def test_files(self):
        root = os.path.join(os.path.dirname(os.path.abspath(__file__)), "..", "..", "..")
        stored = Book.open(os.path.join(root, "examples", "first-match.book"))
        self.assertEqual((len(stored), str(stored[4])), (6, "*.A\nB.a\n..."))
        with tempfile.TemporaryDirectory() as folder:
            path = os.path.join(folder, "match.book")
            self.book.save(path)
            self.assertEqual(Book.open(path), self.book)
            for damaged in (b"", b"\x01", bytes(self.book)[:-1], bytes(self.book)[:20]):
                with open(path, "wb") as file:
                    file.write(damaged)
                self.refused(40, Book.open, path)
        with self.assertRaises(FileNotFoundError):
            Book.open(path)


class Sentences(Case):
    def test_numbers(self):
        numbers = [*range(1, 7), *range(8, 13), *range(21, 32), 33, *range(40, 43), *range(50, 57), 80, 81]
        self.assertEqual(list(SENTENCES), numbers)
        self.assertEqual(Refusal(32).sentence, "no number that a call gives")


class Threads(Case):
    def test_many_at_once(self):
        setting = Setting(4, 9, 2, initial_food_count=3, max_ticks=40)

        def play(seed):
            source, state, match, shown = np.random.default_rng(seed), setting.initial_state(), Match(), []
            while not match.over:
                while state.due:
                    state = draw_by(state, source).next
                match, step = match.take_move(setting, state.step(setting, source.integers(0, 3, 4)))
                state = step.next
                shown.append((bytes(state), step.events, state.observe(1).tobytes()))
            return shown

        due = [play(seed) for seed in range(8)]
        found = [None] * 8

        def run(seed):
            for _ in range(5):
                found[seed] = play(seed)

        threads = [threading.Thread(target=run, args=(seed,)) for seed in range(8)]
        for thread in threads:
            thread.start()
        for thread in threads:
            thread.join()
        self.assertEqual(found, due)


if __name__ == "__main__":
    unittest.main()
