"""How the program is found and called."""

import os
import signal
import threading
import time
from pathlib import Path
from typing import Any, Callable, List, Tuple
from unittest import mock

from geesefuton import program
from geesefuton.program import ProgramError
from tests.package.cases import MOST, Case, fake_program, is_running
from tests.package.helpers import TOP, completed, python


class Interrupted(BaseException):
    """What a signal raises."""


class Commands(Case):
    def interruptible(self) -> Callable[[int, object], None]:
        """Lets SIGINT raise, and gives its handler."""
        def interrupt(number: int, _: object) -> None:
            raise Interrupted

        self.addCleanup(signal.signal, signal.SIGINT, signal.signal(signal.SIGINT, interrupt))
        return interrupt

    def refused(self, *words: object) -> ProgramError:
        """The error of a command."""
        with self.assertRaises(ProgramError) as caught:
            program.run(str(words[0]), *map(str, words[1:]))
        return caught.exception

    def test_a_program_that_is_not_built(self) -> None:
        self.set(TAC="")
        build = f"build it by `{program.typed('tac make 42')}`, or "
        for file, clone, how in (("/bin/rt", self.folder, build),
                                 (None, None, "install the toolchain, Rattle, whose command rt ")):
            with mock.patch.object(program, "top", return_value=self.folder), \
                    mock.patch("shutil.which", lambda name: file if name == "rt" else None):
                self.assertEqual(program.to_build(), clone)
                self.assertIn(f"{self.folder}/crates/tacd/out/tacd: {how}",
                              str(self.refused("make", 1)))

    def test_how_a_command_is_typed(self) -> None:
        self.addCleanup(os.chdir, os.getcwd())
        for folder, name in ((TOP, "./geesefuton"), (TOP / "docs", "../geesefuton")):
            os.chdir(folder)
            self.assertEqual(program.typed("lobby x"), f"{name} lobby x")
        with mock.patch.object(program, "__file__", "/usr/lib/python3/geesefuton/program.py"):
            self.assertEqual(program.typed("lobby x"), "geesefuton lobby x")

    def test_calls_give_their_words_and_get_the_output(self) -> None:
        self.use_program('echo "$@"')
        game, log = Path("a game"), Path("log")
        for text, words in ((program.make(42), "make 42"), (program.show(game), "show a game"),
                            (program.upgrade(game), "upgrade a game"),
                            (program.play(game, "s"), "play a game s"),
                            (program.table([(game, log), (game, log)]),
                             "table a game log a game log"),
                            (program.solve("a"), "solve a"), (program.worth("a"), "worth a")):
            self.assertEqual(text, words + "\n")
        self.assertEqual(program.audit(game, log), "audit a game log")

    def test_bytes_are_given_as_a_file(self) -> None:
        self.use_program('echo "$@"; cat /dev/stdin')
        self.assertEqual(program.audit("game", b"a log"), "audit game /dev/stdin\na log")
        self.assertEqual(program.solve(b"an account"), "solve /dev/stdin\nan account")
        self.assertEqual(program.run("show", program.INPUT, given=b"x"), "show /dev/stdin\nx")
        self.assertEqual(program.run("show", program.INPUT), "show /dev/stdin\n")
        self.use_program(r"printf 'a\377b\n'")  # bytes that are no text are no error
        self.assertEqual(program.show("x"), "a\ufffdb\n")

    def test_a_refusal_has_its_status_and_first_line_unless_it_is_allowed(self) -> None:
        for body, words, status, line, told in (
                ("echo game 3 4; echo more; exit 2", ("show", "x"), 2, "game 3 4",
                 "tac show ended with exit status 2 (the game file is refused: game 3 4)"),
                ("kill -9 $$", ("make", 1), -9, "", "tac make ended with exit status -9")):
            self.use_program(body)
            fault = self.refused(*words)
            self.assertEqual((fault.status, fault.line, str(fault)), (status, line, told))
        self.use_program("echo some; exit 6")
        self.assertEqual(program.run("make", 1, allowed=(program.OK, program.CLOCK)), "some\n")
        self.assertEqual(self.refused("make", 1).status, program.CLOCK)

    def test_what_the_statuses_mean(self) -> None:
        for status, meaning in ((1, "no command"), (2, "game file"), (3, "missing"),
                                (4, "output"), (5, "port"), (6, "lapsed"), (7, "memory"),
                                (8, "refused"), (9, "not sound")):
            fault = program.ended("play", status, "a line")
            self.assertIn(meaning, str(fault))
            self.assertTrue(str(fault).startswith(f"tac play ended with exit status {status} ("))
            self.assertEqual((fault.status, fault.line), (status, "a line"))
        self.assertEqual(str(program.ended("play", 77, "a line")),
                         "tac play ended with exit status 77 (a line)")

    def test_a_library_that_is_too_old_for_the_program(self) -> None:
        self.use_program("echo some\n# GLIBC_2.34\0")
        due = " needs glibc 2.34 or later, and this system has 2.31: use a newer system, or build "
        with mock.patch("platform.libc_ver", lambda: ("glibc", "2.31")):
            self.assertIn(due, str(self.refused("make", 1)))
            self.assertRaises(ProgramError, program.served_words, "game", 7000, 500)
            self.use_program("echo some\n# GLIBC_2.31\0")  # one that was built there
            self.assertEqual(program.make(1), "some\n")
        self.use_program("echo some\n# GLIBC_2.34\0")
        for name, number in (("glibc", "2.34"), ("glibc", "2.41"), ("", "")):
            with mock.patch("platform.libc_ver", lambda told=(name, number): told):
                self.assertEqual(program.make(1), "some\n")

    def test_a_long_output_is_read_whole_and_no_file_stays_open(self) -> None:
        self.use_program("yes 0123456 | head -n 20000; cat /dev/stdin")
        before = sorted(os.listdir("/dev/fd"))
        self.assertEqual(program.run("make", 1, given=b"given\n"), "0123456\n" * 20000 + "given\n")
        self.set(TAC=str(self.folder / "none"))
        self.refused("make", 1)
        self.assertEqual(sorted(os.listdir("/dev/fd")), before)

    def test_an_unsound_log_is_an_answer_and_a_refused_one_is_not(self) -> None:
        self.use_program("echo unsound score 3; exit 9")
        self.assertEqual(program.audit("g", "l"), "unsound score 3")
        self.assertRaises(ProgramError, program.table, [("g", "l")])
        self.use_program("echo text 5 1; exit 8")
        self.assertRaisesRegex(ProgramError, "text 5 1", program.audit, "g", "l")

    def test_a_program_that_takes_too_long(self) -> None:
        self.use_program("exec sleep 20")
        for name, call in (("make", lambda: program.run("make", 1, timeout=0.1)),
                           ("audit", lambda: program.audit("g", "l", 0.1))):
            self.assertRaisesRegex(ProgramError, f"tac {name} took longer than 0.1 seconds", call)

    def test_a_program_that_cannot_be_run(self) -> None:
        for name, data, mode, due in (
                ("none", None, 0, f"there is no program {self.folder / 'none'}"),
                ("text", b"x", 0o644, "is not executable: chmod +x it"),
                ("bad", b"\x00\x01\x02", 0o755,
                 "bad is not a program for this system: tac needs x86-64 Linux")):
            file = self.folder / name
            if data is not None:
                file.write_bytes(data)
                file.chmod(mode)
            self.set(TAC=str(file))
            fault = self.refused("make", 1)
            self.assertIsNone(fault.status)
            self.assertIn(due, str(fault))

    def test_a_signal_while_the_process_is_made_leaves_none_behind(self) -> None:
        interrupt = self.interruptible()
        made: List[int] = []
        make, end = os.posix_spawn, os.waitpid
        ends: List[Tuple[int, int]] = []

        def slow(*words: Any, **how: Any) -> int:
            made.append(make(*words, **how))
            signal.raise_signal(signal.SIGINT)  # comes before the caller has the process
            return made[0]

        def ended(*words: Any) -> Tuple[int, int]:
            ends.append(end(*words))
            return ends[-1]

        self.use_program("exec sleep 60")
        with mock.patch("os.posix_spawn", slow), mock.patch("os.waitpid", ended), \
                self.assertRaises(Interrupted):
            program.make(1)
        self.assertIs(signal.getsignal(signal.SIGINT), interrupt)
        self.assertEqual(ends[-1], (made[0], signal.SIGKILL))

    def test_a_signal_that_does_not_interrupt_the_wait_is_taken_all_the_same(self) -> None:
        """One that comes just before the wait does not, nor one that another thread gets."""
        waiting, wait = threading.Event(), os.waitpid

        def begun(*words: int) -> Tuple[int, int]:
            waiting.set()
            return wait(*words)

        def send() -> None:
            waiting.wait()  # and until the main thread lets others go on
            signal.pthread_kill(threading.get_ident(), signal.SIGINT)

        self.interruptible()
        self.use_program(f"exec sleep {MOST}")
        began = time.monotonic()
        threading.Thread(target=send, daemon=True).start()
        with mock.patch("os.waitpid", begun), self.assertRaises(Interrupted):
            program.make(1)
        self.assertLess(time.monotonic() - began, MOST / 2)

    def test_the_file_is_that_of_the_variable_and_holds_in_any_folder(self) -> None:
        file = fake_program(self.folder, "exit")
        self.set(TAC=os.path.relpath(file))
        self.assertEqual(program.find(), file)
        self.assertEqual(program.served_words("g", 7000, 500), [file, "serve", "g", "7000", "500"])
        self.assertEqual(program.served_words(Path("g"), 7000, 500, "json"),
                         [file, "serve", "g", "7000", "500", "json"])
        self.set(TAC="tac", PATH=str(self.folder))
        self.assertEqual(program.find(), file)  # a name without a slash is looked for

    def test_without_the_variable_it_is_that_of_the_clone(self) -> None:
        self.set(TAC="")
        with mock.patch("geesefuton.program.top", return_value=self.folder):
            self.assertIn("tacd/out/tacd", str(self.refused("make", 1)))
            built = self.folder / "crates" / "tacd" / "out"
            built.mkdir(parents=True)
            Path(fake_program(built, "echo built")).rename(built / "tacd")
            self.assertEqual(program.make(1), "built\n")
        with mock.patch("geesefuton.program.top", return_value=None):
            self.assertIn("set the variable TAC", str(self.refused("make", 1)))
        self.assertEqual(program.top(), TOP)
        with mock.patch("geesefuton.program.__file__", "/usr/lib/python3/geesefuton/program.py"):
            self.assertIsNone(program.top())  # a package that is installed stands in none

    def test_what_a_thread_has_started_ends_with_its_script(self) -> None:
        self.use_program(f"cd {self.folder}; echo $$ > new; mv new number; exec sleep {2 * MOST}")
        code = ("import os, sys, threading, time; from geesefuton import program; "
                "threading.Thread(target=program.make, args=(1,), daemon=True).start()\n"
                "while not os.path.exists(sys.argv[1]): time.sleep(0.01)")
        completed(*python(code, self.folder / "number"), check=True)
        number = int((self.folder / "number").read_text())
        self.until(lambda: not is_running(number), "it still runs")
