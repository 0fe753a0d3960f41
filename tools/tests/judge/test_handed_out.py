"""Tests of what becomes of captures that workers have: each worker's and scheduler's end is made up here, and has no
captures but those that it's about."""
import types
import unittest
from unittest import mock

from dnssec_check_tools.asking.faults import Failure
from dnssec_check_tools.judging import handed_out
from dnssec_check_tools.judging.spread import Task
from dnssec_check_tools.judging.work import Common, Judged, Row

COMMON = Common({7: b""}, None, None, [7])
DASK = types.SimpleNamespace(**{name: type(name, (Exception,), {}) for name in ("CancelledError", "KilledWorker", "TimeoutError")})


class Future:
    """What a worker has; it ends with an answer or a fault."""

    def __init__(self, key, octets, worker):
        self.key, self.octets, self.worker = key, octets, worker
        self.status, self.found, self.calls = "pending", None, []

    def add_done_callback(self, call):
        self.calls.append(call)

    def end(self, found):
        self.status, self.found = "done", found
        for call in self.calls[-1:]:
            call(self)

    def result(self, timeout):
        assert timeout
        if isinstance(self.found, Exception):
            raise self.found
        return self.found

    def cancel(self):
        self.status = "cancelled"

    def release(self):
        self.status = "released"


class Client:
    def __init__(self, threads):
        self.threads, self.futures = threads, []

    def nthreads(self):
        return dict(self.threads)

    def submit(self, judge, octets, questions, common, key, pure, workers):
        assert (judge, questions, common, pure) == ("judge", ["asked"], COMMON, False)
        worker, = workers
        self.futures.append(Future(key, octets, worker))
        return self.futures[-1]


def task(number):
    return Task(number, "-", b"%d" % number, None, ["asked"])


def told(number):
    """The verdicts that a worker has for a capture."""
    return Judged([("told", number)], [])


class Handing(unittest.TestCase):
    def setUp(self):
        patch = mock.patch.object(handed_out, "LOOK_SECONDS", 0.001)
        patch.start()
        self.addCleanup(patch.stop)

    def begin(self, count, **threads):
        """So many captures, handed to workers with so many threads, by their names."""
        self.client = Client(threads)
        self.handed = handed_out.HandedOut(DASK, self.client, "judge", COMMON)
        self.look()
        for number in range(count):
            self.assertTrue(self.handed.give(task(number)), number)

    def look(self):
        return list(self.handed.look())

    def results(self):
        """What is done, until nothing more is; and then what has to be judged alone is handed out."""
        found = list(self.handed.results())
        while not self.handed.finished.empty():
            found += self.handed.results()
        return found + list(self.handed.results())

    def at(self, worker):
        """The captures that a worker has."""
        return [int(each.octets) for each in self.client.futures if each.status == "pending" and each.worker == worker]

    def end(self, number, found=None):
        """The last that was handed of a capture ends with its answer, or as is told."""
        future = [each for each in self.client.futures if int(each.octets) == number][-1]
        future.end(told(number) if found is None else found)
        return future

    def lose(self, worker):
        del self.client.threads[worker]
        return self.look()

    def of_lost(self, number):
        said = "the process that judged it was lost with its worker, the second that was lost by it"
        return number, Judged([Row(7, "asked", 1, "fault", {"said": said}, None)], [])


class Usual(Handing):
    def test_a_worker_has_two_captures_for_each_thread(self):
        self.begin(6, a=2, b=1)
        self.assertFalse(self.handed.give(task(6)))
        self.assertEqual((len(self.at("a")), len(self.at("b"))), (4, 2))
        self.end(3)
        self.assertEqual(self.results(), [(3, told(3))])
        self.assertTrue(self.handed.give(task(6)))
        for number in (6, 0, 1, 2, 4, 5):
            self.end(number)
        self.assertFalse(self.handed.is_over())
        self.assertEqual(len(self.results()), 6)
        self.assertTrue(self.handed.is_over())

    def test_without_a_worker_nothing_is_given(self):
        self.begin(0)
        self.assertFalse(self.handed.give(task(0)))

    def test_what_ends_all(self):
        for found, said in ((Failure("no program"), "^no program$"), (KeyError("x"), "^a worker failed: KeyError: 'x'$")):
            self.begin(1, a=1)
            self.end(0, found)
            with self.assertRaisesRegex(Failure, said):
                self.results()


class Lost(Handing):
    def test_captures_of_a_lost_worker_are_judged_again_each_alone(self):
        self.begin(4, a=1, b=1)
        lost, kept = self.at("a"), self.at("b")
        self.assertEqual(self.lose("a"), [])
        self.assertFalse(self.handed.give(task(4)))
        self.assertEqual((self.results(), self.at("b")), ([], kept))  # none, while it has others
        for number in kept:
            self.end(number)
        self.assertEqual(self.results(), [(number, told(number)) for number in kept])
        for number in lost:
            self.assertFalse(self.handed.give(task(4)))
            self.assertEqual((self.handed.is_over(), self.at("b")), (False, [number]))
            self.end(number)
            self.assertEqual(self.results(), [(number, told(number))])
        self.assertTrue(self.handed.is_over())
        self.assertTrue(self.handed.give(task(4)))

    def test_one_by_which_a_second_worker_is_lost_has_a_row(self):
        self.begin(2, a=1)
        self.client.threads["b"] = 1
        self.assertEqual((self.lose("a"), self.results(), self.at("b")), ([], [], [0]))
        self.client.threads["c"] = 1
        self.assertEqual(self.lose("b"), [self.of_lost(0)])
        self.assertEqual((self.results(), self.at("c")), ([], [1]))
        self.end(1)
        self.assertEqual((self.results(), self.handed.is_over()), ([(1, told(1))], True))

    def test_a_worker_that_dask_tells_to_be_killed_is_lost(self):
        self.begin(1, a=1)
        for expected in ([], [self.of_lost(0)]):
            self.end(0, DASK.KilledWorker())
            self.assertEqual(self.results(), expected)
        self.assertTrue(self.handed.is_over())

    def test_an_answer_of_a_lost_worker_is_not_told_beside_the_one_that_counts(self):
        self.begin(1, a=1, b=1)
        worker = self.client.futures[0].worker
        self.lose(worker)
        self.client.futures[0].end(told(0))
        self.assertEqual(self.results(), [])
        self.end(0)
        self.assertEqual((self.results(), self.handed.is_over()), ([(0, told(0))], True))

    def test_an_answer_that_is_not_had_in_time_is_asked_for_again(self):
        """The worker has it, and is there or not."""
        self.begin(1, a=1)
        self.end(0, DASK.TimeoutError())
        self.assertEqual((self.results(), self.handed.is_over(), len(self.client.futures)), ([], False, 1))
        self.end(0)
        self.assertEqual(self.results(), [(0, told(0))])

    def test_no_key_is_used_twice(self):
        self.begin(2, a=1)
        self.client.threads["b"] = 1
        self.lose("a")
        self.results()
        keys = [each.key for each in self.client.futures]
        self.assertEqual((len(set(keys)), len(keys)), (3, 3))


class Scheduler(Handing):
    def find_another(self):
        """Another scheduler in place of the one that was lost, which knows nothing of what that had."""
        self.client.futures.clear()
        self.handed.take_back()

    def test_what_a_lost_one_had_is_handed_out_again(self):
        self.begin(3, a=1, b=1)
        self.end(0)
        self.end(1, DASK.CancelledError())
        self.assertEqual(self.results(), [(0, told(0))])
        self.assertTrue(self.handed.is_cut_off)
        self.find_another()
        self.assertEqual((self.handed.is_cut_off, self.results()), (False, []))
        self.assertEqual(sorted(self.at("a") + self.at("b")), [1, 2])
        for number in (1, 2):
            self.end(number)
        self.assertEqual((self.results(), self.handed.is_over()), ([(1, told(1)), (2, told(2))], True))

    def test_its_end_is_no_fault_of_a_capture(self):
        """So a capture by which a worker is lost then, and once more, is judged again in between."""
        self.begin(1, a=1)
        self.end(0, DASK.CancelledError())
        self.assertEqual(self.results(), [])
        self.find_another()
        for worker, expected in (("a", []), ("b", [self.of_lost(0)])):
            self.client.threads["b"] = 1
            self.results()
            self.assertEqual(len(self.at(worker)), 1)
            self.assertEqual(self.lose(worker), expected)


if __name__ == "__main__":
    unittest.main()
