"""Tests of `judge --scheduler`, on loopback: workers and schedulers are ended on the way, and no capture is lost or told
twice."""
import os
import shutil
import signal
import socket
import subprocess
import sys
import time

from test_command import interruptible
from tool import run_program

from .helper import ANCHORS, JUDGE, NOON, Judging, capture_of, needs, needs_dns

COUNT = 60
LIMIT = 300  # seconds, for whatever takes a moment where nothing else is done
START = "import sys; from distributed.cli.dask_{0} import main; sys.exit(main())"
WWW = capture_of("bind-www-a")


def free_port():
    with socket.socket() as found:
        found.bind(("127.0.0.1", 0))
        return found.getsockname()[1]


def wait_for_port(port):
    last = time.monotonic() + LIMIT
    while time.monotonic() < last:
        with socket.socket() as tried:
            if tried.connect_ex(("127.0.0.1", port)) == 0:
                return
        time.sleep(0.1)
    raise AssertionError("it never answers")


@needs_dns
@needs("distributed", "distributed")
class Cluster(Judging):
    def start(self, name, *words):
        environment = {**os.environ, "PATH": f"{self.room}/path:{os.environ['PATH']}", "TMPDIR": f"{self.room}/temporary"}
        process = subprocess.Popen([sys.executable, "-c", START.format(name), *words], cwd=self.room, env=environment,
                                   stdout=subprocess.DEVNULL, stderr=subprocess.DEVNULL)
        self.addCleanup(process.wait)
        self.addCleanup(process.kill)
        return process

    def setUp(self):
        super().setUp()
        for name in ("path", "captures", "temporary"):
            (self.room / name).mkdir()
        self.at_workers(self.program)
        self.port = free_port()
        self.address = f"tcp://127.0.0.1:{self.port}"
        self.scheduler = self.start_scheduler()
        self.words = ["--at", NOON, "--anchors", ANCHORS, "--tsv", self.room / "captures", "www.bind.test/A"]

    def start_scheduler(self):
        scheduler = self.start("scheduler", "--host", self.address, "--no-dashboard")
        wait_for_port(self.port)
        return scheduler

    def at_workers(self, program):
        path = self.room / "path" / "dnssec_check"
        path.unlink(missing_ok=True)
        path.symlink_to(program)

    def worker(self):
        return self.start("worker", self.address, "--no-nanny", "--no-dashboard", "--nthreads", "1")

    def captures(self, count):
        """So many, of which the fourth is twice as long as another."""
        for number in range(count):
            shutil.copy(WWW, self.room / "captures" / f"{number:03}.cap")
        with open(self.room / "captures" / "003.cap", "ab") as file:
            file.write(WWW.read_bytes())
        return f"[ $size = {2 * WWW.stat().st_size} ]"

    def begin(self, *words):
        words = [*JUDGE, "--scheduler", self.address, *words, *self.words]
        judge = subprocess.Popen([str(word) for word in words], stdout=subprocess.PIPE, stderr=subprocess.PIPE, bufsize=0,
                                 preexec_fn=interruptible)
        self.addCleanup(judge.communicate)
        self.addCleanup(judge.kill)
        return judge

    def fails(self, judge, told):
        _, errors = judge.communicate(timeout=LIMIT)
        self.assertEqual((judge.returncode, errors.decode()), (1, f"judge: {told}\n"))

    def test_a_worker_that_is_lost(self):
        names = ("bind-www-a", "bind-nosuch", "bind-cut-www")
        for number in range(COUNT):
            shutil.copy(capture_of(names[number % 3]), self.room / "captures" / f"{number:03}.cap")
        self.words.append("nosuch.bind.test/A")
        wanted = self.judge(*self.words)
        lost, kept = self.worker(), self.worker()
        judge = self.begin()
        first = judge.stdout.readline() + judge.stdout.readline()
        lost.kill()
        output, errors = judge.communicate(timeout=LIMIT)
        self.assertIsNone(kept.poll())
        self.assertEqual((judge.returncode, (first + output).decode().splitlines()), wanted[:2], errors.decode())

    def test_a_capture_by_which_two_workers_are_lost_is_named(self):
        is_marked = self.captures(12)
        self.at_workers(self.stand_in(f"{is_marked} && kill -KILL $PPID"))
        workers = [self.worker() for _ in range(3)]
        judge = self.begin()
        output, errors = judge.communicate(timeout=LIMIT)
        rows = [line.split("\t")[5:7] for line in output.decode().splitlines()[1:]]
        self.assertEqual((judge.returncode, [word for word, _ in rows]),
                         (1, ["SecureAnswer"] * 3 + ["fault"] + ["SecureAnswer"] * 8), errors)
        self.assertEqual(rows[3][1], "said the process that judged it was lost with its worker, the second that was lost by it")
        self.assertEqual([worker.poll() for worker in workers].count(-signal.SIGKILL), 2)
        self.assertEqual(list((self.room / "temporary").glob("dnssec_check-*")), [])

    def test_no_scheduler(self):
        words = ("--scheduler", "tcp://127.0.0.1:1", "--wait", "1", "--at", NOON, "--anchors", ANCHORS, WWW, "www.bind.test/A")
        status, output, errors = run_program(*JUDGE, *words)
        self.assertEqual((status, output, errors.count("\n")), (1, b"", 1))
        self.assertIn("no scheduler answers at tcp://127.0.0.1:1", errors)

    def test_no_worker(self):
        self.captures(4)
        self.fails(self.begin("--wait", "1"), f"the scheduler at {self.address} has no worker, and got none for 1 seconds")

    def test_no_worker_any_more(self):
        self.captures(4)
        self.at_workers(self.stand_in("kill -KILL $PPID"))
        worker = self.worker()
        self.fails(self.begin("--wait", "30"), f"the scheduler at {self.address} has no worker, and got none for 30 seconds")
        self.assertEqual(worker.poll(), -signal.SIGKILL)

    def begin_and_wait(self, *words):
        """The tool, once a program is at work, which waits until the room is gone."""
        self.captures(4)
        begun = self.room / "begun"
        self.at_workers(self.stand_in(f"touch {begun}; while [ -e {begun} ]; do sleep 0.1; done"))
        self.worker()
        judge = self.begin(*words)
        while not begun.exists():
            self.assertIsNone(judge.poll())
            time.sleep(0.1)
        return judge

    def test_no_scheduler_any_more(self):
        judge = self.begin_and_wait("--wait", "30")
        self.scheduler.kill()
        self.fails(judge, f"the scheduler at {self.address} was lost, and none answered for 30 seconds")

    def test_another_scheduler_in_its_place(self):
        judge = self.begin_and_wait("--wait", "300")
        self.scheduler.kill()
        self.scheduler.wait()
        self.at_workers(self.program)
        self.start_scheduler()
        self.worker()
        output, errors = judge.communicate(timeout=LIMIT)
        self.assertEqual((judge.returncode, output.count(b"\tSecureAnswer\t"), errors), (0, 4, b""))

    def test_signals(self):
        judge = self.begin_and_wait()
        judge.send_signal(signal.SIGTERM)
        self.assertEqual((judge.communicate(timeout=LIMIT)[1], judge.returncode), (b"judge: terminated\n", 143))
