"""Which calls a read makes where results are dear: products of which some are read and others are not.

Each number is reckoned by hand. It is how many calls there are on which the object that is read depends, by the calls
between, and of which the pass keeps no result; and a call that overwrites its output, or clears it, does not depend on
what that stored.
"""

from __future__ import annotations

import itertools
import unittest
from typing import List, Tuple

from counted import CountedCase
from trowelheath import Matrix, Pass

# The rows and the columns of a product, which stores all its entries.
SIDE = 128
COUNT = SIDE * SIDE


class DearCase(CountedCase):
    """A test of products that are whole."""

    def sources(self, pass_: Pass) -> Tuple[Matrix, Matrix]:
        """A column and a row whose product is whole. Their entries are counted, so the pass keeps both."""
        a = Matrix.from_lists(pass_, SIDE, 1, range(SIDE), [0] * SIDE, range(1, SIDE + 1))
        b = Matrix.from_lists(pass_, 1, SIDE, [0] * SIDE, range(SIDE), range(1, SIDE + 1))
        self.assertEqual((a.number, b.number), (0, 1))
        for item in a, b:
            self.counts(item, SIDE, 1, "the build, for which the new one was made before")
        return a, b

    def results(self, pass_: Pass, count: int) -> List[Matrix]:
        """So many matrices for products."""
        results = [pass_.matrix(SIDE, SIDE) for _ in range(count)]
        self.assertEqual([result.number for result in results], list(range(2, count + 2)))
        return results

    def refresh(self, a: Matrix, b: Matrix, results: List[Matrix]) -> None:
        """Overwrites each result with the product of the column and the row. No call is made for that."""
        for result in results:
            a.mxm(b, "plus.times", out=result)
            self.has_made(a.pass_, 0, ("a product", result.number))

    def fill(self, a: Matrix) -> None:
        """Fills a matrix that was made just now, with a number at each place."""
        rows, columns = [at // SIDE for at in range(COUNT)], [at % SIDE for at in range(COUNT)]
        a.build(rows, columns, range(1, COUNT + 1))
        self.has_made(a.pass_, 1, "the new matrix, of which the build has to know that it is empty")


class OfOnePass(DearCase):
    def test_results_that_are_read_in_reverse_are_made_as_often_as_in_order(self) -> None:
        for passes, count, is_reversed in itertools.product([1, 2], [4, 8], [False, True]):
            with self.subTest(passes=passes, count=count, is_reversed=is_reversed):
                p = self.opened(512, passes)[-1]
                a, b = self.sources(p)
                results = self.results(p, count)
                for turn in range(20):
                    self.refresh(a, b, results)
                    for result in reversed(results) if is_reversed else results:
                        # Its last product, and neither one before that nor another result; both sources are kept.
                        self.counts(result, COUNT, 1, ("turn", turn, "result", result.number))

    def test_results_that_did_not_change_are_not_made_again(self) -> None:
        (p,) = self.opened(512, 1)
        a, b = self.sources(p)
        results = self.results(p, 2)
        for _ in range(50):
            self.refresh(a, b, results)
        for at in range(40):
            # The first count of each makes its last product.
            self.counts(results[at % 2], COUNT, 1 if at < 2 else 0, ("a count", at))

    def test_of_products_that_overwrite_one_another_the_last_is_made(self) -> None:
        (p,) = self.opened(512, 1)
        a, b = self.sources(p)
        results = self.results(p, 1)
        for _ in range(100):
            self.refresh(a, b, results)
        self.counts(results[0], COUNT, 1, "the last product")


class OfSomePasses(DearCase):
    def test_one_of_the_passes_makes_a_dear_result_beside_one_that_nobody_reads(self) -> None:
        # Another pass comes first in each turn. Where two results are overwritten, the second is never read.
        for count in 1, 2:
            passes = self.opened(64, 4)
            a, b = self.sources(passes[0])
            results = self.results(passes[0], count)
            for turn in range(5):
                first = passes[turn % 4]
                a.using(first)[0, 0] = turn
                self.has_made(first, 0, "a set")
                self.refresh(a, b, results)
                for at in range(4):
                    # The pass that comes first makes the set and the product. The column before the set it has of the
                    # pass that came first in the turn before, and so the others have all of this one.
                    result = results[0].using(passes[(turn + at) % 4])
                    self.counts(result, COUNT, 2 if at == 0 else 0, (count, "results, turn", turn, "pass", at))
                    self.reads(result, (0, 5), turn * 6, 0, "the product of this turn")

    def test_passes_that_adopt_what_was_prepared_make_nothing(self) -> None:
        p, q, r = self.opened(64)
        a, b, c = (p.matrix(SIDE, SIDE) for _ in range(3))
        self.fill(a)
        a.mxm(a, out=b)
        a.mxm(a, out=c)
        self.counts(b, COUNT, 2, "the build and the square")
        self.prepares(p, 6, 1, "the other square is dear by what it reads, and then none of the six is left to make")
        self.adopts(q, p, 6)
        self.counts(c.using(q), COUNT, 0, "it was prepared and adopted")
        self.counts(b.using(q), COUNT, 0, "it was read and adopted")
        self.adopts(r, p, 6)
        self.prepares(r, 6, 0, "all six were adopted")
        self.counts(c.using(r), COUNT, 0, "it was prepared and adopted")
        self.has_made(p, 1, "its last call was to prepare")

    def test_a_small_vector_is_read_by_its_own_calls(self) -> None:
        # Whatever else there is: a product that nobody reads, and sets of another vector.
        p, q, _ = self.opened(16_384)
        a = Matrix.from_lists(p, SIDE, 1, range(SIDE), [0] * SIDE, range(1, SIDE + 1))
        b = Matrix.from_lists(p, 1, SIDE, [0] * SIDE, range(SIDE), range(1, SIDE + 1))
        c = p.matrix(SIDE, SIDE)
        a.mxm(b, out=c)
        u = p.vector(4)
        u[0] = 5
        w = p.vector(4)
        for _ in range(10_000):
            w[1] = 6
        self.reads(u, 0, 5, 2, "the new vector and its set")
        self.reads(u.using(q), 0, 5, 2, "the same by a pass that has read nothing yet")
        self.reads(w, 1, 6, 10_001, "the other new vector and its sets")


class Released(DearCase):
    def test_a_pass_that_lets_go_makes_anew_what_it_needs(self) -> None:
        p, q, r = self.opened(64)
        u = p.vector(4)
        u[0] = 5
        u[1] = 6
        u_q, u_r = u.using(q), u.using(r)
        self.reads(u_q, 0, 5, 3, "the new vector and two sets")
        self.adopts(p, q, 3)
        q.release()
        self.has_made(q, 0, "a release makes nothing")
        self.knows(q, 3)
        self.reads(u_q, 0, 5, 3, "all three anew")
        self.reads(u_q, 1, 6, 0, "the same vector")

        # Who adopted keeps them: its wait has nothing to make, and leaves nothing to the others.
        self.reads(u, 0, 5, 0, "it was adopted")
        self.waits(u, "materialize", 0, 3, "all were adopted")
        p.release()
        facts = p.facts()
        self.assertEqual((facts.settled, facts.made), (0, 0), "nothing is settled with a pass that lets go")
        self.reads(u, 1, 6, 3, "all three anew")
        self.assertEqual(p.facts().settled, 0, "a read settles nothing")
        self.reads(u_q, 1, 6, 0, "the other pass keeps what it made anew")

        # Who never had anything to let go of makes them like any other.
        self.meets(r, p, 3)
        r.release()
        self.knows(r, 3)
        self.reads(u_r, 1, 6, 3, "all three")
        self.reads(u_r, 0, 5, 0, "the same vector")

    def test_a_pass_that_lets_go_finds_what_it_left_to_others(self) -> None:
        p, q, _ = self.opened(64)
        a, b = (p.matrix(SIDE, SIDE) for _ in range(2))
        self.fill(a)
        a.mxm(a, out=b)
        self.counts(b, COUNT, 2, "the build and the square, which overwrites its output")
        p.release()
        self.counts(b, COUNT, 0, "the square was dear, so it was left, and the pass finds it there")
        self.counts(b.using(q), COUNT, 0, "so does a pass that has read nothing yet")
        self.knows(q, 4)


if __name__ == "__main__":
    unittest.main()
