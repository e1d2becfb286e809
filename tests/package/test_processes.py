"""Processes, what they write, and the command lines of the package's programs."""

import argparse
import contextlib
import io
import os
import resource
import shutil
import signal
import socket
import subprocess
import tempfile
import unittest
from concurrent.futures import ThreadPoolExecutor
from pathlib import Path
from typing import Any, Callable, Dict, List, Tuple
from unittest import mock

from geesefuton.arguments import Parser, seconds, whole
from geesefuton.processes import Children, Output, Stopped, free_port, tell, wait_until, why
from tests.package.cases import MOST, Case, is_running
from tests.package.helpers import completed, python, variables

# A script that starts a process which ignores signals, with a process of its own, and a folder;
# it prints their numbers and the folder, and waits.
SCRIPT = """
import subprocess, sys, time
from geesefuton.processes import Children, command
def main():
    with Children() as children:
        stubborn = "trap '' TERM INT HUP; sleep 300 & echo $!; wait"
        child = children.start(["sh", "-c", stubborn], stdout=subprocess.PIPE)
        folder = children.folder("some")
        (folder / "file").write_text("x")
        print(child.pid, int(child.stdout.readline()), folder, flush=True)
        {wait}
    return 0
sys.exit(command("script", main))
"""


@unittest.skipUnless(Path("/proc/self").exists(), "processes are looked for in /proc")
class Ends(Case):
    def test_what_a_process_started_ends_with_it(self) -> None:
        with Children() as children:
            first = children.start(["sh", "-c", "sleep 300 & echo $!; wait"],
                                   stdout=subprocess.PIPE)
            assert first.stdout is not None
            with first.stdout as told:
                started = int(told.readline())
            children.end(first)
            self.until(lambda: not is_running(started))

    def end(self, wait: str, number: int = 0) -> int:
        """Runs the script, sends it a signal, and sees that nothing is left. Gives its status."""
        script = subprocess.Popen(python(SCRIPT.format(wait=wait)), stdout=subprocess.PIPE,
                                  stderr=subprocess.DEVNULL, text=True, env=variables())
        assert script.stdout is not None
        with script.stdout as told:
            *processes, folder = told.readline().split()
            self.assertTrue(Path(folder, "file").exists())
            self.assertEqual([is_running(int(each)) for each in processes], [True, True])
            if number:
                script.send_signal(number)
            status = script.wait(MOST)
        self.until(lambda: not (any(is_running(int(each)) for each in processes)
                                or Path(folder).parent.parent.exists()))
        return status

    def test_a_script_leaves_nothing_however_it_ends(self) -> None:
        sleeping = "time.sleep(300)"
        cases = [("pass", 0, 0), ("raise OSError(28, 'full', 'my.file')", 0, 1),
                 (sleeping, signal.SIGINT, 130), (sleeping, signal.SIGTERM, 143),
                 (sleeping, signal.SIGHUP, 129), (sleeping, signal.SIGKILL, -9)]
        with ThreadPoolExecutor(len(cases)) as pool:
            got = list(pool.map(lambda case: self.end(case[0], case[1]), cases))
        self.assertEqual(got, [status for _, _, status in cases])


class Groups(Case):
    def test_one_process_can_be_ended_before_the_others(self) -> None:
        with Children() as children:
            first = children.start(["sh", "-c", "sleep 300 & wait"])
            second = children.start(["sleep", "300"])
            file = children.groups / str(first.pid)
            self.until(file.exists)
            self.assertEqual(children.end(first), -signal.SIGKILL)
            self.assertFalse(file.exists())  # another process may get its number
            self.assertIsNone(second.poll())
            third = children.start(["sh", "-c", "exit 5"])
            third.wait()
            self.assertEqual(children.end(third), 5)
        self.assertEqual(second.wait(5), -signal.SIGTERM)

    def test_processes_are_asked_to_end_first(self) -> None:
        with Children() as children:
            code = "trap 'echo bye > $0/file; exit 0' TERM; echo; sleep 300 & wait"
            child = children.start(["sh", "-c", code, self.folder], stdout=subprocess.PIPE)
            assert child.stdout is not None
            with child.stdout as told:
                told.readline()
        self.assertEqual((self.folder / "file").read_text(), "bye\n")
        self.assertEqual(child.wait(MOST), 0)

    def test_how_a_process_is_started_is_said_as_to_popen(self) -> None:
        with Children() as children:
            child = children.start([Path("sh"), "-c", "pwd; echo $SOME; exit 3"], cwd=self.folder,
                                   stdout=subprocess.PIPE, env={**os.environ, "SOME": "thing"})
            told, _ = child.communicate(timeout=MOST)
        self.assertEqual((told.decode(), child.returncode),
                         (f"{os.path.realpath(self.folder)}\nthing\n", 3))

    def test_folders_are_new_and_gone_afterwards(self) -> None:
        with Children() as children:
            first, second = children.folder("a"), children.folder("a")
            self.assertNotEqual(first, second)
            self.assertTrue(first.is_dir() and second.is_dir())
            (first / "sub").mkdir()
        self.assertFalse(first.exists() or second.exists() or first.parent.parent.exists())

    def test_ctrl_c_does_not_end_the_guard_before_it_has_a_session_of_its_own(self) -> None:
        real, masks = subprocess.Popen, list["set[signal.Signals]"]()

        def started(*words: object, **how: object) -> object:
            masks.append(set(signal.pthread_sigmask(signal.SIG_BLOCK, set())))
            return real(*words, **how)  # type: ignore[call-overload]

        before = signal.pthread_sigmask(signal.SIG_BLOCK, set())
        with mock.patch("subprocess.Popen", started), Children():
            self.assertEqual(signal.pthread_sigmask(signal.SIG_BLOCK, set()), before)
        self.assertIn(signal.SIGINT, masks[0])

    def test_a_folder_that_cannot_be_made_is_told(self) -> None:
        missing = str(self.folder / "none")
        with mock.patch.object(tempfile, "tempdir", missing), \
                self.assertRaises(OSError) as caught:
            Children()
        self.assertEqual(caught.exception.filename, missing)

    def test_a_free_port(self) -> None:
        port = free_port()
        self.assertTrue(1024 <= port <= 65535)
        socket.create_server(("127.0.0.1", port)).close()


class Outputs(Case):
    def setUp(self) -> None:
        super().setUp()
        self.file = self.folder / "out"

    def test_a_file_has_what_was_written_in_utf_8_and_at_once(self) -> None:
        self.file.write_text("an old text that is longer")
        out = Output(self.file)
        self.assertTrue(out.write("one\n") and out.write(b"two\n") and out.write("1–2\n"))
        self.assertEqual(self.file.read_bytes(), b"one\ntwo\n1\xe2\x80\x932\n")
        for _ in range(2):
            out.close()
        self.assertEqual((out.fault, out.name), (None, str(self.file)))

    def test_a_file_that_it_was_given_stays_open(self) -> None:
        file = self.enter(self.file.open("wb"))
        out = Output(file.fileno(), "a file")
        out.write("x")
        out.close()
        self.assertTrue(out.write("y"))
        self.assertEqual(self.file.read_text(), "xy")

    def test_a_fault_that_comes_when_a_file_is_closed(self) -> None:
        out = Output(self.file)
        number = out._number
        with mock.patch("os.close", side_effect=OSError(5, "Input/output error")):
            out.close()
        self.assertEqual(out.fault, "Input/output error")
        assert number is not None
        os.close(number)

    def test_a_file_that_takes_only_the_beginning_of_a_text(self) -> None:
        limits = resource.getrlimit(resource.RLIMIT_FSIZE)
        out = Output(self.file)
        resource.setrlimit(resource.RLIMIT_FSIZE, (4, limits[1]))  # the rest is refused
        try:
            is_whole = out.write("one two")
        finally:
            resource.setrlimit(resource.RLIMIT_FSIZE, limits)
        self.assertFalse(out.write(" three"))
        out.close()
        self.assertEqual((is_whole, out.fault), (False, "File too large"))
        self.assertEqual(self.file.read_text(), "one ")

    def test_names_and_files_that_are_not_there(self) -> None:
        self.assertEqual(Output(1).name, "standard output")
        for name, fault in (("/nowhere/out", "No such file or directory"),
                            ("/dev/full", "No space left on device")):
            out = Output(name)
            self.assertEqual([out.write("x"), out.write("y")], [False, False])
            self.assertEqual(out.fault, fault)
            out.close()
        reading, writing = os.pipe()
        os.close(reading)
        out = Output(writing, "a pipe")
        self.assertFalse(out.write("x"))
        self.assertEqual((out.name, out.fault), ("a pipe", "its reader has gone"))
        os.close(writing)
        self.assertEqual(Output(writing).fault, "Bad file descriptor")

    def test_a_slow_reader_gets_everything(self) -> None:
        reading, writing = os.pipe()
        self.addCleanup(os.close, reading)
        code = "import sys, time; time.sleep(0.1); print(len(sys.stdin.buffer.read()))"
        child = subprocess.Popen(python(code), stdin=reading, stdout=subprocess.PIPE)
        self.assertTrue(Output(writing).write("x" * 500_000))
        os.close(writing)
        self.assertEqual(child.communicate(timeout=200)[0], b"500000\n")


class GivingWay(unittest.TestCase):
    CODE = ("import os, sys; from geesefuton.processes import give_way; give_way(3); "
            "print(os.getpriority(os.PRIO_PROCESS, 0), os.sched_getscheduler(0)); "
            "sys.stdout.write(open('/proc/self/autogroup').read())")

    def told(self, *before: str, **how: Any) -> List[str]:
        """The priority and the class of a process that gave way, and how nice its session is."""
        done = completed(*before, *python(self.CODE), **how)
        return (done.stdout or done.stderr).split()[:2] + done.stdout.split()[-1:]

    @unittest.skipUnless(os.path.exists("/proc/self/autogroup"), "there are no shares of sessions")
    def test_a_process_and_the_session_that_it_leads_get_a_lower_priority(self) -> None:
        own, session = os.getpriority(os.PRIO_PROCESS, 0), self.session()
        due = [str(min(19, own + 3)), str(os.SCHED_OTHER), "3"]  # a new session begins at 0
        self.assertEqual(self.told(start_new_session=True, check=True), due)
        self.assertEqual(self.told(check=True)[2], str(session))  # it leads none

    @unittest.skipUnless(shutil.which("chrt"), "there is no chrt")
    @unittest.skipUnless(os.path.exists("/proc/self/autogroup"), "there are no shares of sessions")
    def test_a_process_of_real_time_becomes_a_common_one(self) -> None:
        told = self.told("chrt", "-r", "1", start_new_session=True, check=False)
        if len(told) < 3:
            self.skipTest(f"no process may be one of real time: {' '.join(told)}")
        self.assertEqual(told[1], str(os.SCHED_OTHER))

    @staticmethod
    def session() -> int:
        return int(Path("/proc/self/autogroup").read_text().split()[-1])


class Commands(unittest.TestCase):
    def ran(self, body: str, before: str = "", **how: Any) -> Tuple[int, str, str]:
        """The status, the output and the errors of a command whose body is this line, after what
        stands before it."""
        code = ("import os, signal, sys\nfrom geesefuton import processes\n"
                f"from geesefuton.program import ProgramError\n{before}\n"
                f"def main():\n    {body}\nsys.exit(processes.command('name', main))")
        done = completed(*python(code), **how)
        return done.returncode, done.stdout, done.stderr

    def test_errors_are_one_line_and_a_status(self) -> None:
        for body, status, told in (
                ("return 0", 0, ""), ("return 3", 3, ""), ("sys.exit(2)", 2, ""),
                ("sys.exit()", 0, ""), ("sys.exit('why')", 1, ""),
                ("raise processes.Stopped(15)", 143, ""),
                ("processes.tell('1–2'); return 0", 0, "1–2\n"),
                ("raise ProgramError('no program')", 1, "name: no program\n"),
                ("raise OSError(13, 'x', 'my.file')", 1, "name: my.file: x\n"),
                ("open('/nowhere/x')", 1, "name: /nowhere/x: No such file or directory\n"),
                ("raise BrokenPipeError(32, 'x')", 1, "name: its reader has gone\n")):
            self.assertEqual(self.ran(body), (status, "", told), body)
        # Nor is a standard error that is closed an error, and a hangup that is ignored stays so.
        for before, body, printed in (
                ("os.close(2)", "processes.tell('x'); return 0", ""),
                ("signal.signal(signal.SIGHUP, signal.SIG_IGN)",
                 "os.kill(os.getpid(), signal.SIGHUP); print('went on'); return 0", "went on\n")):
            self.assertEqual(self.ran(body, before), (0, printed, ""))

    def test_faults_in_words(self) -> None:
        self.assertEqual(str(Stopped(signal.SIGTERM)), "stopped by SIGTERM")
        self.assertEqual([why(OSError(28, "full", "file")), why(OSError("odd"))], ["full", "odd"])

    def test_what_python_still_keeps_is_written_or_told(self) -> None:
        with open("/dev/full", "wb") as full:
            self.assertEqual(self.ran("print('kept'); return 3", stdout=full)[0], 3)
            self.assertEqual(self.ran("print('kept'); return 0", stdout=full),
                             (1, None, "name: standard output: No space left on device\n"))


class Telling(unittest.TestCase):
    def test_a_passing_line_is_replaced_on_a_terminal_and_kept_elsewhere(self) -> None:
        for is_terminal, due in ((True, "a\n1\r\x1b[K2\r\x1b[Kb\nc\n"),
                                 (False, "a\n1\n2\nb\nc\n")):
            with self.subTest(is_terminal=is_terminal), \
                    mock.patch("geesefuton.processes.os.write") as write, \
                    mock.patch("geesefuton.processes.os.isatty", return_value=is_terminal):
                for text in "a12bc":
                    tell(text, is_passing=text in "12")
                self.assertEqual(b"".join(call[0][1] for call in write.call_args_list).decode(),
                                 due)

    def test_a_wait_is_one_line_with_its_seconds_on_a_terminal(self) -> None:
        for is_terminal, due in ((True, ["wait", "wait: 1 s", "wait: 2 s", "wait: 2 s"]),
                                 (False, ["wait"])):
            told: List[str] = []
            with mock.patch("geesefuton.processes.os.isatty", return_value=is_terminal), \
                    mock.patch("geesefuton.processes.time") as clock, \
                    mock.patch("geesefuton.processes.tell",
                               lambda text, is_passing=False: told.append(text)):
                clock.monotonic.side_effect = [0.0, 0.5, 1.0, 2.9]
                wait_until(mock.Mock(side_effect=[False, False, False, True]), "wait")
            self.assertEqual(told, due)


class Numbers(unittest.TestCase):
    def test_what_is_read_and_what_is_refused(self) -> None:
        cases: List[Tuple[Callable[[str], object], Dict[str, object], str, List[str]]] = [
            (whole(3, 65535), {"3": 3, "7": 7, "65535": 65535}, "a number from 3 to 65535",
             ["2", "65536", "-4", "+4", "4.0", " 4", "4 ", "", "x", "0x4", "1_0", "\u0664"]),
            (whole(0), {"0": 0, "123456789": 123456789}, "a number of 0 or more", ["-1"]),
            (whole(1), {"1": 1}, "a number of 1 or more", ["0"]),
            (seconds, {"0": 0.0, "0.25": 0.25, "30": 30.0, "1000000": 1e6},
             "a number of seconds", ["-1", "-0.1", "1000001", "nan", "inf", "x", "", "1s"])]
        for read, due, told, refused in cases:
            self.assertEqual({text: read(text) for text in due}, due)
            for text in refused:
                with self.assertRaises(argparse.ArgumentTypeError, msg=text) as caught:
                    read(text)
                self.assertIn(f"{told}, not {text!r}", str(caught.exception))


class Parsers(unittest.TestCase):
    def ended(self, *words: str) -> Tuple[object, List[str], str]:
        """The exit status, what is told, and what is printed."""
        told: List[str] = []
        parser = Parser("name", "What it does.\n\n    name 3   so\n")
        parser.add_argument("--number", type=whole(1, 9))
        printed = io.StringIO()
        with self.assertRaises(SystemExit) as caught, contextlib.redirect_stdout(printed), \
                mock.patch("geesefuton.arguments.tell", told.append):
            parser.parse_args(words)
        return caught.exception.code, told, printed.getvalue()

    def test_errors_are_one_line_and_status_2_and_words_are_not_abbreviated(self) -> None:
        for words, why in (
                ("--number 10", "argument --number: expected a number from 1 to 9, not '10'"),
                ("--num 5", "unrecognized arguments: --num 5")):
            self.assertEqual(self.ended(*words.split()), (2, [f"name: {why} (see --help)"], ""))

    def test_help(self) -> None:
        status, told, printed = self.ended("--help")
        self.assertEqual((status, told), (0, []))
        self.assertIn("usage: name ", printed)
        self.assertIn("What it does.\n\n    name 3   so\n", printed)  # lines stay as they are
