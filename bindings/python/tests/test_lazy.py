"""Which calls a read makes in histories that are long for other objects, or dear.

A read makes the calls that its object depends on and whose results its pass lacks, each once, and none that another
pass left to all. Each number is reckoned by hand.
"""

from __future__ import annotations

import unittest
from typing import Tuple

from counted import CountedCase
from trowelheath import Pass, Vector

# So many entries that an operation is dear whose result has them: it counts 2 for each, and what is dear 4096 * 64.
MANY = 140_000


def add(u: Vector, w: Vector, times: int = 1) -> None:
    """Adds the first vector to the second, so often."""
    for _ in range(times):
        w.ewise_add(u, "plus", out=w)


class LongForOthers(CountedCase):
    """Short histories of one object amid long ones of another."""

    def two_vectors(self, pass_: Pass) -> Tuple[Vector, Vector]:
        """Two vectors with a one each, of which the first was added to the second 400 times: 404 calls."""
        u, w = pass_.vector(2), pass_.vector(2)
        self.assertEqual((u.number, w.number), (0, 1))
        u[0] = 1
        w[0] = 1
        add(u, w, 400)
        return u, w

    def test_a_read_of_one_object_is_right_amid_calls_on_another(self) -> None:
        p, q, _ = self.opened(1024)
        u, w = self.two_vectors(p)
        self.has_made(p, 0, "a change makes nothing")
        self.meets(q, p, 404)
        u_q, w_q = u.using(q), w.using(q)
        u_q[1] = 5
        self.reads(u_q, 0, 1, 3, "the new vector, the set of the one pass and that of the other")
        self.reads(u_q, 1, 5, 0, "the same vector")
        u[1] = 6
        self.reads(u_q, 1, 6, 1, "the set since then")
        self.reads(w_q, 0, 401, 402, "the new vector, its set and 400 sums; what they read of the other is there")
        self.reads(u_q, 1, 6, 0, "nothing since then")
        self.reads(u, 0, 1, 4, "the new vector and three sets, by a pass that has read nothing yet")

        add(u, w, 400)
        u[0] = 5
        self.reads(u_q, 0, 5, 1, "the set since then, and no sum")
        self.reads(u_q, 1, 6, 0, "the same vector")
        self.reads(w_q, 0, 801, 400, "the sums since then, of what the other vector had before the last set")
        self.reads(u_q, 1, 6, 0, "nothing since then")
        self.knows(p, 807)
        self.knows(q, 807)

    def test_a_read_goes_on_from_what_another_pass_settled(self) -> None:
        p, q, r = self.opened(512)
        u, w = self.two_vectors(p)
        self.meets(q, p, 404)
        u_q, w_q, u_r, w_r = u.using(q), w.using(q), u.using(r), w.using(r)
        u_q[1] = 5
        self.has_made(q, 0, "a change makes nothing")
        self.reads(u_q, 0, 1, 3, "the new vector and two sets")
        self.waits(w, "materialize", 405, 405, "all calls, with the set of the other pass")
        self.meets(r, p, 405)
        self.reads(w_r, 0, 401, 0, "the whole store was left")
        self.knows(r, 405)
        self.reads(w_q, 0, 401, 0, "the whole store was left")
        self.knows(q, 405)

        w_q[0] = 6
        self.reads(w, 0, 6, 1, "the set since the wait")
        w[1] = 5
        self.reads(w_q, 1, 5, 2, "both sets since the wait")
        self.reads(w_q, 0, 6, 0, "the same vector")
        self.reads(u, 1, 5, 0, "nothing since the wait")
        self.reads(w, 1, 5, 1, "its own set, after that of the other pass was made")
        self.reads(u_r, 1, 5, 0, "nothing since the wait")
        self.reads(w_r, 1, 5, 2, "both sets since the wait")
        self.knows(r, 407)


class Waits(CountedCase):
    def test_a_wait_after_few_calls_leaves_its_store_to_the_other_passes(self) -> None:
        p, q, r = self.opened(512)
        u = p.vector(2)
        u[0] = 5
        self.waits(u, "materialize", 2, 2, "the new vector and its set")
        self.waits(u, "materialize", 0, 2, "all is settled")
        self.meets(q, p, 2)
        u_q, u_r = u.using(q), u.using(r)
        self.reads(u_q, 0, 5, 0, "the store of the wait was left")
        self.waits(u_q, "materialize", 0, 2, "the same by a pass that had it left")
        self.knows(q, 2)

        # There is one place for stores of so few calls, and it is full: the next wait leaves nothing.
        u[1] = 6
        self.waits(u, "materialize", 1, 3, "the set since the first wait")
        self.meets(r, p, 3)
        self.reads(u_r, 1, 6, 1, "the set since the wait whose store was left")
        self.reads(u_r, 0, 5, 0, "the same vector")
        self.knows(r, 3)

    def test_a_wait_takes_what_another_pass_settled_at_its_point(self) -> None:
        p, q, _ = self.opened(512)
        u = p.vector(2)
        u[0] = 5
        self.meets(q, p, 2)
        u_q = u.using(q)
        self.reads(u_q, 0, 5, 2, "the new vector and its set")
        u[1] = 6
        self.waits(u, "materialize", 3, 3, "all calls, of which this pass had none")
        self.waits(u_q, "materialize", 0, 3, "that store was left, so the third call is not made either")

    def test_a_wait_for_one_object_makes_its_calls(self) -> None:
        p, *_ = self.opened(64)
        u = p.vector(4)
        u[0] = 5
        self.waits(u, "complete", 2, 0, "the new vector and its set, and none is settled")
        self.reads(u, 0, 5, 0, "the wait made them")


class Shared(CountedCase):
    """What one pass has made, by adoptions, or left to all since it was dear."""

    def test_what_a_pass_evaluated_is_adopted(self) -> None:
        p, q, r = self.opened(64)
        u = p.vector(2)
        for _ in range(40):
            u[0] = 1
        self.reads(u, 0, 1, 41, "the new vector and its sets")
        self.adopts(q, p, 41)
        u_q, u_r = u.using(q), u.using(r)
        self.reads(u_q, 0, 1, 0, "it was adopted")
        self.meets(r, p, 41)
        self.reads(u_r, 0, 1, 41, "a meeting shares no results")
        u_q[0] = 5
        self.reads(u_q, 0, 5, 1, "its own set")
        self.reads(u, 0, 5, 1, "the set of the pass that adopted, over what was made before")
        self.knows(p, 42)

    def test_dear_work_is_left_to_the_other_passes(self) -> None:
        p, q, r = self.opened(64)
        u, w = p.vector(MANY), p.vector(MANY)
        u.build(range(MANY), 1)
        add(u, w)
        self.reads(w, 7, 1, 3, "the second new vector, the build and the sum: the build has made the first new one")
        w_q, w_r = w.using(q), w.using(r)
        self.reads(w_q, 7, 1, 0, "the sum was dear, so it was left")
        self.knows(q, 4)

        add(u, w)
        self.reads(w, 7, 2, 1, "the sum since then")
        self.reads(w_q, 7, 2, 0, "it was left, too")
        add(u.using(q), w_q)
        self.reads(w_q, 7, 3, 1, "the sum since then")
        self.reads(w, 7, 3, 0, "the other pass left it")

        # More than are kept: the last is among those that are.
        for times in range(3):
            add(u, w)
            self.counts(w, MANY, 1, f"the sum since then, {times}")
        add(u, w)
        self.reads(w, 7, 7, 1, "the sum since then")
        self.reads(w_r, 7, 7, 0, "the last was left to a pass that has read nothing yet")

    def test_what_is_dear_is_prepared(self) -> None:
        p, q, _ = self.opened(64)
        u, w = p.vector(MANY), p.vector(MANY)
        u[7] = 1
        self.prepares(p, 0, 0, "nothing is dear")
        self.reads(u, 7, 1, 2, "the new vector and its set")
        u.clear()
        u.build(range(MANY), 1)
        self.has_made(p, 1, "the build has to know that its vector is empty, which the clear makes it")
        add(u, w)
        self.prepares(p, 6, 3, "the sum is dear, so it is made, with the other new vector and the build")
        self.reads(w, 7, 1, 0, "it was prepared")
        self.adopts(q, p, 6)
        w_q = w.using(q)
        self.reads(w_q, 7, 1, 0, "it was adopted")
        self.prepares(q, 6, 0, "all six were adopted")


if __name__ == "__main__":
    unittest.main()
