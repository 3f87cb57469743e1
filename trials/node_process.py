"""Runs one process of `kyoto-link node`: starts it, gives it lines, reads its results, and ends it."""

import contextlib
import pathlib
import re
import signal
import subprocess
import threading
import time

from folders import Difference, differ

# The most seconds until a process's first line, until a result, and until its end.
START_SECONDS, ANSWER_SECONDS, END_SECONDS = 60, 60, 60
# The most lines that wait for their results at once, and the most bytes of each with which all of them fit into the pipe.
MOST_WAITING, LONG_LINE = 400, 160
FIRST = re.compile(r"scheme [0-9a-f]{64}")
ANSWER = re.compile(r"(\d+) (recorded \d+|repeat|late|refused \d+|status \w+|not possible|fault [a-z-]+|exported \d+)")
LAST = re.compile(r"records (\d+)")


class NodeProcess:
    """A process, the lines that it was given, and its results, which a thread reads."""

    def __init__(self, name, words, said):
        self.name, self.words, self.said = name, list(map(str, words)), pathlib.Path(said)
        self.lines, self.answers = [], []
        self.first = self.last = self.odd = None
        self.over, self.changed = False, threading.Condition()
        pipe = subprocess.PIPE
        with self.said.open("wb") as stderr:
            self.process = subprocess.Popen(self.words, stdin=pipe, stdout=pipe, stderr=stderr, bufsize=0)
        self.reader = threading.Thread(target=self.read, daemon=True)
        self.reader.start()

    def read(self):
        """Reads the output of the process to its end. A last line without a newline is left out."""
        with open(self.process.stdout.fileno(), encoding="utf-8", errors="replace", closefd=False) as output:
            for line in output:
                if line.endswith("\n"):
                    with self.changed:
                        self.keep(line[:-1])
                        self.changed.notify_all()
        with self.changed:
            self.over = True
            self.changed.notify_all()

    def keep(self, line):
        """Keeps a line of the output: the first one, a result, or the last one."""
        answer = ANSWER.fullmatch(line)
        if self.first is None and FIRST.fullmatch(line):
            self.first = line
        elif self.first and not self.last and answer and int(answer[1]) == len(self.answers) + 1:
            self.answers.append(answer[2])
        elif self.first and not self.last and LAST.fullmatch(line):
            self.last = line
        else:
            self.odd = self.odd or line

    def tail(self):
        """Returns the end of the process's standard error."""
        return self.said.read_text(errors="replace").strip()[-500:]

    def command(self):
        return " ".join(self.words)

    def check(self):
        """Raises `Difference` if the process wrote an unexpected line or has ended."""
        differ(self.odd is not None, f"{self.name} wrote {self.odd!r}")
        status = self.process.poll()
        if status is not None:
            raise Difference(f"{self.name} ended with status {status}: {self.tail()}; it was {self.command()}")

    def wait_until(self, done, seconds, what):
        """Waits until `done` returns true. If the process ends before, or after `seconds`, it raises `Difference`."""
        end = time.monotonic() + seconds
        with self.changed:
            while not done():
                if self.over:
                    status = self.process.wait(END_SECONDS)
                    raise Difference(f"{self.name} ended with status {status} before {what}: {self.tail()}; it was {self.command()}")
                left = end - time.monotonic()
                differ(left <= 0, f"{self.name} had no {what} after {seconds} seconds")
                self.changed.wait(left)
        differ(self.odd is not None, f"{self.name} wrote {self.odd!r}")

    def wait_ready(self):
        """Waits for the first line, and returns the sum of the scheme in it."""
        self.wait_until(lambda: self.first, START_SECONDS, "first line")
        return self.first.split(" ")[1]

    def waiting(self):
        """Returns the number of lines that have no result yet."""
        return len(self.lines) - len(self.answers)

    def send(self, line):
        """Gives the process a line, and waits only if too many results are missing. Returns the number of the line."""
        if self.waiting() >= MOST_WAITING:
            self.wait_until(lambda: self.waiting() < MOST_WAITING, ANSWER_SECONDS, "result")
        self.lines.append(line)
        # A line for which the pipe has no room waits until the process reads it, and no longer than for a result.
        limit = threading.Timer(ANSWER_SECONDS, self.process.kill) if len(line) > LONG_LINE else None
        if limit:
            limit.start()
        with contextlib.suppress(BrokenPipeError):  # `check` and `wait_until` report how it ended
            self.process.stdin.write(f"{line}\n".encode())
        if limit:
            limit.cancel()
        return len(self.lines) - 1

    def ask(self, lines, seconds=ANSWER_SECONDS):
        """Gives the process these lines, and returns their results."""
        places = [self.send(line) for line in lines]
        self.wait_until(lambda: not self.waiting(), seconds, "result")
        return [self.answers[it] for it in places]

    def memory(self):
        """Returns the bytes of resident memory of the process."""
        status = pathlib.Path(f"/proc/{self.process.pid}/status").read_text()
        return int(re.search(r"^VmRSS:\s+(\d+) kB$", status, re.MULTILINE)[1]) * 1_024

    def wait_end(self, wanted, how):
        """Waits for the end, which must have that status."""
        try:
            status = self.process.wait(END_SECONDS)
        except subprocess.TimeoutExpired:
            raise Difference(f"{self.name} had not ended {END_SECONDS} seconds after {how}") from None
        self.reader.join(END_SECONDS)
        self.close()
        if status != wanted:
            raise Difference(f"{self.name} ended with status {status} after {how}: {self.tail()}; it was {self.command()}")
        differ(self.odd is not None, f"{self.name} wrote {self.odd!r}")

    def kill(self, by=signal.SIGKILL):
        """Ends the process by a signal. It must run until then."""
        self.process.send_signal(by)
        self.wait_end(-by, f"signal {by:d}")

    def begin_stop(self, word="stop"):
        """Stops the process by that line, or by the end of its lines if the word is empty."""
        self.check()
        if word:
            with contextlib.suppress(BrokenPipeError):
                self.process.stdin.write(f"{word}\n".encode())
        else:
            self.process.stdin.close()

    def end_stop(self):
        """Waits for the end of a stop, and returns the number of records that the process prints."""
        self.wait_end(0, "it was stopped")
        differ(self.last is None, f"{self.name} ended without printing the number of its records")
        return int(LAST.fullmatch(self.last)[1])

    def close(self):
        for it in (self.process.stdin, self.process.stdout):
            with contextlib.suppress(OSError):
                it.close()

    def end_at_once(self):
        """Kills the process if it still runs."""
        if self.process.poll() is None:
            self.process.kill()
            self.process.wait()
        self.reader.join(END_SECONDS)
        self.close()
