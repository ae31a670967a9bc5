"""Tests of the morning round (02, note 13)."""

import random
import unittest

from tests.second import rounds


# 02, note 13.
class Rounds(unittest.TestCase):

    QUEUE = [5, 7, 9, 2]

    def test_calls(self):
        self.assertEqual(rounds.handle(self.QUEUE, 3), (0, [5, 7, 9], [2, 5, 7, 9]))
        for b in (4, 200):
            self.assertEqual(rounds.handle(self.QUEUE, b), (0, self.QUEUE, self.QUEUE))
        self.assertEqual(rounds.handle([], 1), (0, [], []))
        self.assertEqual(rounds.join(self.QUEUE, 0), (0, [5, 7, 9, 2, 0]))
        self.assertEqual(rounds.leave(self.QUEUE, 7), (0, [5, 9, 2]))

    def test_refusals(self):
        for b in (0, 201):
            self.assertEqual(rounds.handle(self.QUEUE, b), (30, [], self.QUEUE))
        for number, refusal in ((200, 30), (7, 31)):
            self.assertEqual(rounds.join(self.QUEUE, number), (refusal, self.QUEUE))
        for number, refusal in ((200, 30), (8, 31)):
            self.assertEqual(rounds.leave(self.QUEUE, number), (refusal, self.QUEUE))
        for queue in ([7, 7], [200], list(range(200)) + [0], [0] * 201):
            self.assertEqual(rounds.handle(queue, 0), (10, [], queue))
            self.assertEqual(rounds.join(queue, 200), (10, queue))
            self.assertEqual(rounds.leave(queue, 200), (10, queue))

    # In how many calls a table is taken where none joins or leaves.
    def calls_until(self, queue, table, b):
        calls = 0
        taken = []
        while table not in taken:
            _, taken, queue = rounds.handle(queue, b)
            calls += 1
        return calls

    def test_place_divided_by_b_rounded_up(self):
        for place, b, calls in ((200, 1, 200), (200, 200, 1), (3, 3, 1), (4, 3, 2), (1, 200, 1), (199, 2, 100)):
            self.assertEqual(self.calls_until(list(range(200)), place - 1, b), calls)

    # 'within p / b accepted calls of the round, rounded up .. whoever joins or
    # leaves meanwhile'
    def test_waiting(self):
        for seed in range(300):
            rest = random.Random(seed)
            queue = rest.sample(range(40), rest.randrange(1, 20))
            b = rest.randrange(1, 8)
            table = rest.choice(queue)
            most = -(-(queue.index(table) + 1) // b)
            calls = 0
            taken = []
            while table not in taken:
                kind = rest.choice(('handle', 'refused', 'join', 'leave'))
                number = rest.randrange(40)
                if kind == 'handle':
                    _, taken, queue = rounds.handle(queue, b)
                    calls += 1
                elif kind == 'refused':
                    self.assertEqual(rounds.handle(queue, 0), (30, [], queue))
                elif kind == 'join':
                    queue = rounds.join(queue, number)[1]
                elif number != table:
                    queue = rounds.leave(queue, number)[1]
                self.assertTrue(rounds.is_right(queue))
            self.assertLessEqual(calls, most)


if __name__ == '__main__':
    unittest.main()
