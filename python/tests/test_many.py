"""Many questions at once: by threads, processes and dask, with programs that are killed and programs that lie."""
import concurrent.futures
import contextlib
import importlib.util
import itertools
import os
import pickle
import random
import signal
import threading
import unittest
import unittest.mock

import fakes
import patience
import reference
from coxeter_shell import (
    CoxeterError,
    CoxeterGroup,
    ExecutorFailed,
    Polynomial,
    ProgramEnded,
    Refusal,
    Unanswered,
    UnexpectedAnswer,
    UnexpectedResult,
    find_program,
    many,
)

HAS_DASK = importlib.util.find_spec("distributed") is not None

# For so many seconds a table over dask may stand still: its scheduler waits up to five minutes for a worker that doesn't answer.
STILL = 330


@contextlib.contextmanager
def dask(workers=2, **options):
    """A client of dask with workers on this machine, for a `with` block. A worker that was killed is awaited however long its start takes."""
    from dask import config
    from distributed import Client, LocalCluster

    how = {"n_workers": workers, "threads_per_worker": 1, "dashboard_address": None}
    with config.set({"distributed.deploy.lost-worker-timeout": "1 hour"}):
        with LocalCluster(**how) as cluster, Client(cluster, **options) as client:
            yield client


def executors():
    yield concurrent.futures.ThreadPoolExecutor(3)
    yield concurrent.futures.ProcessPoolExecutor(2)
    if HAS_DASK:
        with dask() as client:
            yield client.get_executor()


def within(limit, call):
    """What a call gives in another thread, if it ends within a limit of time."""
    found = []

    def run():
        try:
            found.append((call(), None))
        except BaseException as error:
            found.append((None, error))

    thread = threading.Thread(target=run, daemon=True)
    thread.start()
    while not found:
        limit.wait(thread.join)
    value, error = found[0]
    if error is not None:
        raise error
    return value


@contextlib.contextmanager
def moving(client):
    """A limit for a `with` block that is reached where a table over dask stands still: no row comes, no question is asked again, no worker
    comes or goes, and no process is started or ends."""
    steps = itertools.count()
    with contextlib.ExitStack() as patched:
        for owner, name in ((CoxeterGroup, "_row_of"), (CoxeterGroup, "_certified"), (many.Asked, "submit")):

            def noted(*words, call=getattr(owner, name)):
                next(steps)
                return call(*words)

            patched.enter_context(unittest.mock.patch.object(owner, name, noted))

        def seen():
            return repr(steps), set(client.scheduler_info()["workers"]), patience.children(os.getpid())

        yield patience.Moving(STILL, seen)


class Losing(concurrent.futures.Executor):
    """An executor that loses the first result of each question and asks it again. Where that raises an error, its future is never done: so
    is dask's, where a worker dies."""

    def submit(self, call, *arguments):
        future = concurrent.futures.Future()

        def run():
            with contextlib.suppress(Exception):
                call(*arguments)
            with contextlib.suppress(Exception):
                future.set_result(call(*arguments))

        threading.Thread(target=run, daemon=True).start()
        return future


class Giving(concurrent.futures.Executor):
    """An executor whose workers give something else: what `change` makes of the result, the first so many times."""

    def __init__(self, change, times=1000):
        self.change, self.times = change, times

    def submit(self, call, *arguments):
        future = concurrent.futures.Future()
        self.times -= 1
        try:
            future.set_result(self.change(call(*arguments)) if self.times >= 0 else call(*arguments))
        except Exception as error:
            future.set_exception(error)
        return future


class Map(unittest.TestCase):
    def test_in_their_order(self):
        real = reference.group(3)
        words = list(real.words.values())
        for executor in executors():
            with executor, CoxeterGroup("A", 3) as group:
                for chunksize in (1, 5, 100):
                    found = list(group.map("inverse", words, executor=executor, chunksize=chunksize))
                    self.assertEqual(found, [real.words[reference.inverse(w)] for w in real])
                pairs = [(x, w) for w in real for x in real]
                xs, ws = [real.words[x] for x, _ in pairs], [real.words[w] for _, w in pairs]
                found = list(group.map("kazhdan_lusztig_polynomial", xs, ws, executor=executor, chunksize=50))
                self.assertEqual([p.coefficients for p in found], [reference.polynomial(x, w) for x, w in pairs])

    def test_without_an_executor(self):
        with CoxeterGroup("A", 3) as group:
            found = group.map("length", ["12", "121", "1"])
            self.assertEqual([next(found), next(found), next(found)], [2, 3, 1])
            self.assertEqual(list(group.map("length", [])), [])

    def test_as_lists_of_jobs(self):
        """Methods with short answers: each answer is that of the method, and few questions are sent."""
        real = reference.group(3)
        words = list(real.words.values())
        pairs = [words * len(words), [w for w in words for _ in words]]
        for workers in (1, 2):
            with CoxeterGroup("A", 3, workers=workers) as group:
                for method, short in many.SHORT.items():
                    arguments = [words] if short.words == 1 else [it[:300] for it in pairs]
                    right = [getattr(group, method)(*item) for item in zip(*arguments)]
                    with unittest.mock.patch.object(group.program, "ask", side_effect=AssertionError):
                        self.assertEqual(list(group.map(method, *arguments)), right, method)
                with group.within(60), unittest.mock.patch.object(group.program, "ask_list", side_effect=AssertionError):
                    self.assertEqual(list(group.map("length", ["12", "1"])), [2, 1])

    def test_what_is_wrong_comes_in_its_place(self):
        with CoxeterGroup("A", 3) as group:
            for wrong, error in (("4", Refusal), ([4], Refusal), (None, TypeError), ("1 2", ValueError), ("1" * 5000, Refusal), ("é", Refusal)):
                for place in range(12):
                    found = group.map("length", ["12"] * place + [wrong, "1"])
                    self.assertEqual([next(found) for _ in range(place)], [2] * place)
                    with self.assertRaises(error):
                        next(found)
            with self.assertRaises(TypeError):
                list(group.map("length", ["1"], ["2"]))
            self.assertEqual(group.length("12"), 2)

    def test_tables_belong_to_the_group(self):
        with concurrent.futures.ProcessPoolExecutor(1) as executor, CoxeterGroup("A", 3) as group:
            for basis in group.map("kazhdan_lusztig_basis", ["2132", "2312"], executor=executor):
                self.assertIs(basis.group, group)
                self.assertEqual(basis["2"], [1, 1])

    def test_wrong_methods(self):
        group = CoxeterGroup("A", 3)
        for method in ("iter_left_cells", "_line", "rank", "nothing", ""):
            with self.assertRaises(ValueError):
                group.map(method, ["1"])
        with self.assertRaises(ValueError):
            group.map("length", ["1"], chunksize=0)

    def test_refusals(self):
        for executor in executors():
            with executor, CoxeterGroup("A", 3) as group:
                found = group.map("length", ["1", "12", "4", "13"], executor=executor)
                self.assertEqual([next(found), next(found)], [1, 2])
                with self.assertRaises(Refusal) as caught:
                    next(found)
                self.assertEqual((caught.exception.number, caught.exception.line), (16, "length 4"))

    def test_programs_that_are_killed(self):
        """The first two programs that are started end by a signal when they are asked."""
        for times, succeeds in ((2, True), (9, False)):
            with fakes.Fakes() as folder:
                group = CoxeterGroup("A", 3, program=folder.killed(times, find_program()))
                with concurrent.futures.ThreadPoolExecutor(1) as executor:
                    found = group.map("length", ["121", "12", "1"], executor=executor)
                    if succeeds:
                        self.assertEqual(list(found), [3, 2, 1])
                    else:
                        with self.assertRaises(ProgramEnded):
                            list(found)

    def test_want_of_memory_is_told(self):
        with fakes.Fakes() as folder, concurrent.futures.ThreadPoolExecutor(1) as executor:
            group = CoxeterGroup("A", 3, program=folder.fake("sys.exit(5)"))
            with self.assertRaises(ProgramEnded) as caught:
                list(group.map("length", ["1"], executor=executor))
            self.assertEqual(caught.exception.status, 5)

    def test_an_executor_that_loses_results(self):
        """It asks again, and where that raises an error it never tells."""
        with fakes.Fakes() as folder:
            group = CoxeterGroup("A", 3, program=folder.killed(4, find_program()))
            found = within(patience.Patience(20), lambda: list(group.map("length", ["121", "12", "1"], executor=Losing(), chunksize=3)))
            self.assertEqual(found, [3, 2, 1])
            group = CoxeterGroup("A", 3, program=folder.killed(99, find_program()))
            with self.assertRaises(ProgramEnded):
                within(patience.Patience(20), lambda: list(group.map("length", ["121"], executor=Losing())))

    def test_workers_that_give_something_else(self):
        """None, too few results, too many, and what is none."""
        changes = [
            lambda it: None,
            lambda it: [],
            lambda it: ("results", it[1][1:]),
            lambda it: ("results", it[1] * 2),
            lambda it: ("results", dict.fromkeys(it[1])),
            lambda it: (*it, 1),
            lambda it: ("error", "text"),
            lambda it: ("other", it[1]),
            lambda it: it[1],
        ]
        group = CoxeterGroup("A", 3)
        for change in changes:
            with self.assertRaises(UnexpectedResult) as caught:
                list(group.map("length", ["1", "12"], executor=Giving(change), chunksize=2))
            self.assertEqual(caught.exception.count, 2)
            self.assertIn("of 2 questions", str(caught.exception))
            self.assertEqual(str(pickle.loads(pickle.dumps(caught.exception))), str(caught.exception))

    def test_executors_that_fail(self):
        def fail(_):
            raise OSError("the worker was killed")

        group = CoxeterGroup("A", 3)
        self.assertEqual(list(group.map("length", ["1", "12"], executor=Giving(fail, times=3))), [1, 2])
        with self.assertRaises(ExecutorFailed) as caught:
            list(group.map("length", ["1", "12"], executor=Giving(fail)))
        self.assertIn("OSError: the worker was killed", str(caught.exception))
        self.assertEqual(str(pickle.loads(pickle.dumps(caught.exception))), str(caught.exception))

    def test_executors_with_errors_of_their_own(self):
        """Such as don't tell of a worker that was killed: they are not asked again, and raised behind all others."""

        def wrong(_):
            asked.append(1)
            raise ValueError("no such queue")

        for call in (
            lambda group, executor: list(group.map("length", ["1"], executor=executor)),
            lambda group, executor: group.kazhdan_lusztig_table(["1"], executor=executor),
            lambda group, executor: group.kazhdan_lusztig_table(["1"], executor=executor, certified=True),
        ):
            asked = []
            with CoxeterGroup("A", 3) as group, self.assertRaises(ExecutorFailed) as caught:
                call(group, Giving(wrong))
            self.assertEqual((str(caught.exception), len(asked)), ("the executor failed: ValueError: no such queue", 1))

    def test_a_pool_whose_worker_is_killed(self):
        """The pool breaks with it. What it was asked is asked anew, by another pool, so that one row in three tries is given up, and no other."""
        with CoxeterGroup("A", 3) as group:
            right = group.kazhdan_lusztig_table()
            for times, certified in ((2, False), (2, True), (99, False)):
                with self.subTest(times=times, certified=certified), fakes.Fakes() as folder, concurrent.futures.ProcessPoolExecutor(2) as pool:
                    line = "cert 2132" if certified else "klbasis 2132"
                    deadly = CoxeterGroup("A", 3, program=folder.kills_its_worker(line, times, find_program()))
                    if times == 2:
                        self.assertEqual(deadly.kazhdan_lusztig_table(executor=pool, chunksize=3, certified=certified), right)
                        continue
                    with self.assertRaises(Unanswered) as caught:
                        deadly.kazhdan_lusztig_table(executor=pool)
                    self.assertEqual((caught.exception.words, len(caught.exception.table)), ([(2, 1, 3, 2)], 23))
                    with concurrent.futures.ProcessPoolExecutor(2) as other, self.assertRaises(CoxeterError):
                        list(deadly.map("kazhdan_lusztig_basis", ["1", "2132"], executor=other))

    def test_errors_that_are_not_the_program_s(self):
        """They are raised as they are, and one that can't be pickled by its text."""
        for executor in executors():
            with executor, CoxeterGroup("A", 3) as group:
                with self.assertRaises(TypeError):
                    list(group.map("length", [3], executor=executor))
        self.assertIsInstance(many.portable(ValueError(3)), ValueError)
        self.assertIn("ValueError: <unlocked", str(many.portable(ValueError(threading.Lock()))))

    def test_a_cluster_without_workers(self):
        """Dask waits for a worker without end, and a warning says so. A stand-in has what dask's client has."""

        class Client(concurrent.futures.ThreadPoolExecutor):
            __module__ = "distributed.client"
            workers = {}

            def scheduler_info(self):
                return {"workers": self.workers}

        group, told = CoxeterGroup("A", 3), threading.Event()

        def waits(*words):
            told.wait(60)
            return [3]

        with unittest.mock.patch.multiple(many, WITHOUT_WORKERS=0.5, ask=waits), Client(1) as client:
            with unittest.mock.patch.object(many.warnings, "warn", side_effect=lambda *_: told.set()) as warned:
                self.assertEqual(list(group.map("length", ["121"], executor=client)), [3])
                self.assertIn("no worker for 0.5 seconds", warned.call_args[0][0])
                self.assertEqual(warned.call_count, 1)
                # Where there is one, nothing is said.
                told.clear()
                client.workers = {"tcp://127.0.0.1:1": {}}
                threading.Timer(1.5, told.set).start()
                self.assertEqual(list(group.map("length", ["121"], executor=client)), [3])
                self.assertEqual(warned.call_count, 1)
        self.assertFalse([it for it in threading.enumerate() if it.name == "coxeter_shell watches dask" and not told.wait(1)])

    def test_what_is_not_read_is_not_asked(self):
        with concurrent.futures.ThreadPoolExecutor(1) as executor, CoxeterGroup("A", 3) as group:
            begin, closed, ask = threading.Event(), threading.Event(), many.ask
            executor.submit(begin.wait, 60)
            found = group.map("length", ["1"] * 50, executor=executor)

            def slow(*words):
                """All questions but the first are answered when the results are no longer wanted."""
                if asked.call_count > 1:
                    closed.wait(60)
                return ask(*words)

            with unittest.mock.patch.object(many, "ask", side_effect=slow) as asked:
                begin.set()
                self.assertEqual(next(found), 1)
                found.close()
                closed.set()
                executor.submit(int).result()
            self.assertLessEqual(asked.call_count, 2)


@unittest.skipUnless(HAS_DASK, "dask and distributed are not installed")
class Dask(unittest.TestCase):
    """Workers and programs that are killed, on a cluster of this machine."""

    def test_killed_in_a_loop(self):
        """A worker, its program, or both are killed again and again while they are asked. Nothing hangs, and nothing is wrong."""
        chance = random.Random(4)
        with CoxeterGroup("A", 5) as group, dask(workers=3) as client:
            right = {w: group.kazhdan_lusztig_basis(w) for w in group.elements()}

            def kill(times):
                for _ in range(times):
                    done.wait(chance.uniform(0.1, 0.4))
                    pids = workers(client)
                    for pid in chance.sample(pids, min(1, len(pids))):
                        programs = patience.children(pid)
                        chosen = [programs, [pid], [*programs, pid]][chance.randrange(3)]
                        for it in chosen:
                            with contextlib.suppress(ProcessLookupError):
                                os.kill(it, signal.SIGKILL)

            for kind in (client.get_executor(), client) * 2:
                done = threading.Event()
                killer = threading.Thread(target=kill, args=(8,), daemon=True)
                killer.start()
                try:
                    with moving(client) as limit:
                        table = within(limit, lambda kind=kind: group.kazhdan_lusztig_table(executor=kind, chunksize=4))
                    self.assertEqual(set(table), set(right))
                except Unanswered as error:
                    table = error.table
                    self.assertEqual(set(table) | set(error.words), set(right))
                finally:
                    done.set()
                    killer.join()
                self.assertTrue(all(right[w] == row for w, row in table.items()))

    def test_the_client_is_asked(self):
        """The futures of dask's executor may never be done where workers are killed. Its options stay."""
        with dask(workers=1) as client:
            asked = many.submitting(client.get_executor(retries=2))
            self.assertEqual((asked.func, asked.keywords), (client.submit, {"retries": 2}))
            self.assertEqual(many.submitting(client), client.submit)

    def test_nothing_is_unpickled(self):
        """Certificates come through a client that unpickles nothing. Other results do not."""
        plain = ["dask", "msgpack"]
        with CoxeterGroup("A", 3) as group, dask(deserializers=plain) as client:
            with moving(client) as limit:
                table = within(limit, lambda: group.kazhdan_lusztig_table(executor=client.get_executor(), chunksize=8, certified=True))
            self.assertEqual(table, group.kazhdan_lusztig_table())


def workers(client):
    """The processes of the workers of a client."""
    return [it for it in map(pid_of, client.scheduler_info()["workers"]) if it is not None]


def pid_of(address):
    """The process that listens at an address of this machine."""
    port = f"{int(address.rpartition(':')[2]):04X}"
    with open("/proc/net/tcp", encoding="ascii") as table:
        lines = [line.split() for line in table][1:]
    inodes = {f"socket:[{it[9]}]" for it in lines if it[1].endswith(f":{port}") and it[3] == "0A"}
    for pid in filter(str.isdigit, os.listdir("/proc")):
        with contextlib.suppress(OSError):
            for name in os.listdir(f"/proc/{pid}/fd"):
                if os.readlink(f"/proc/{pid}/fd/{name}") in inodes:
                    return int(pid)
    return None


class Table(unittest.TestCase):
    def test_all_rows(self):
        real = reference.group(3)
        with CoxeterGroup("A", 3) as group:
            for executor in itertools.chain([None], executors()):
                for certified in (False, True):
                    table = group.kazhdan_lusztig_table(executor=executor, chunksize=4, certified=certified)
                    self.assertEqual(list(table), list(real.words.values()))
                    for w, word in real.words.items():
                        right = {real.words[x]: Polynomial(reference.polynomial(x, w)) for x in real if reference.below(x, w)}
                        self.assertEqual(table[word], right)
                        self.assertIs(table[word].group, group)
                if executor is not None:
                    executor.shutdown()
            self.assertEqual(pickle.loads(pickle.dumps(table)), table)

    def test_some_rows(self):
        with CoxeterGroup([[1, 0], [0, 1]]) as group:
            table = group.kazhdan_lusztig_table(["1212", "2121122"], certified=True)
            self.assertEqual(list(table), [(1, 2, 1, 2), (2, 1, 2)])
            with self.assertRaises(ValueError):
                group.kazhdan_lusztig_table()

    def test_programs_that_lie(self):
        right = ["cert 2 3", "element 12", "rows 4", "e:1", "1:1", "2:1", "12:1", "end"]
        other = ["cert 2 3", "element 1", "rows 2", "e:1", "1:1", "end"]
        group = ["cert 2 2", "element 12", "rows 4", "e:1", "1:1", "2:1", "12:1", "end"]
        with fakes.Fakes() as folder:
            for lines, succeeds in ((right, True), ([*right[:3], "e:1+q", *right[4:]], False), (other, False), (group, False)):
                # The answer to `compute`, which has to be right, comes from this group's own program; that of `cert` is made up.
                source = "if line.startswith('compute'): say('12')\nelse: say(*%r)" % lines
                lying = CoxeterGroup("A", 2, program=folder.fake(source))
                if succeeds:
                    self.assertEqual(lying.kazhdan_lusztig_table(["12"], certified=True)["12"]["1"], 1)
                else:
                    with self.assertRaises(UnexpectedAnswer):
                        lying.kazhdan_lusztig_table(["12"], certified=True)
                lying.close()


if __name__ == "__main__":
    unittest.main()
