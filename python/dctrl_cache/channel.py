"""A running program and what is said to it: commands go in, and each has its answer.

Behind each command stands a question of ours, `policy end-RANDOM` with a fresh name that nobody can guess. What the program answers to it,
`N: Unable to locate package end-RANDOM`, ends the answer before it. It refuses nothing, so the exit status stays that of the commands."""

import os
import resource
import secrets
import subprocess
import tempfile
import threading
import time
from collections import deque
from collections.abc import Iterable, Sequence
from typing import Final

from . import script
from .errors import OUT_OF_MEMORY, REFUSALS, Ended, Refused, UnexpectedAnswer, refusal_in
from .script import Text, to_bytes, to_text

_PIECE: Final = 1 << 18
# A mark that a piece cuts has fewer bytes than this.
_OVERLAP: Final = 128
# How often the end of an answer is asked for again where there was no memory for the question, and the pause before, in seconds.
_TRIALS: Final = 40
_PAUSE: Final = 0.05


class Answer:
    """What a command will have printed. `result` waits for it."""

    def __init__(self, channel: "Channel", line: bytes, first_line: int, lines: int) -> None:
        self._channel = channel
        self._line = line
        self._first_line = first_line
        self._lines = lines
        token = b"end-" + secrets.token_hex(16).encode()
        self._question = b"policy %s\n" % token
        self._mark = b"N: Unable to locate package %s\n" % token
        # What stands in the place of the mark where there is no memory for the question.
        self._no_mark = b"E: line %d: %s\n" % (first_line + lines, REFUSALS[OUT_OF_MEMORY].encode())
        # Only a filter can print one line of a stanza and nothing beside it, which then may read as a refusal.
        self._can_print_refusals = script.name_of(line) == b"grep-dctrl"
        self._text: bytes | None = None
        self._failure: Exception | None = None

    @property
    def command(self) -> str:
        """The line of the command, without its body."""
        return to_text(self._line)

    def done(self) -> bool:
        """Whether the answer is there, so that `result` doesn't wait."""
        return self._text is not None or self._failure is not None

    def result(self, timeout: float | None = None) -> bytes:
        """The text of the answer, as the program wrote it; an accepted edit has none.

        Waits `timeout` seconds at most, and then raises TimeoutError. Raises Refused where the command was refused, and Ended where the
        program ended before it had answered."""
        self._channel._wait(self, timeout)
        if self._failure is not None:
            raise self._failure
        assert self._text is not None
        return self._text

    def _refusal(self, text: bytes) -> Refused | None:
        found = refusal_in(text)
        if found is None or not self._first_line <= found[0] < self._first_line + self._lines:
            return None
        place, number = found
        return Refused(place - self._first_line + 1, number, REFUSALS[number], self.command, place)

    def _finish(self, text: bytes) -> None:
        """Takes the text, which is that of a refusal or of an answer."""
        refusal = self._refusal(text)
        if refusal is None:
            self._text = text
        elif self._can_print_refusals:
            self._channel._doubtful[self] = (text, refusal)
        else:
            self._failure = refusal

    def _decide(self, text: bytes, refusal: Refused) -> None:
        """Decides whether a line is a refusal or was printed by a filter. What is refused depends on the words alone, and their answer
        with `-c` is a number."""
        counted = self._line.replace(b"grep-dctrl", b"grep-dctrl -c", 1)
        try:
            self._channel._ask(counted)
            if refusal.number == OUT_OF_MEMORY and self._channel._ask(self._line) != text:
                self._failure = refusal
            else:
                self._text = text
        except Refused as again:
            self._failure = again if again.number == OUT_OF_MEMORY else refusal
        except (Ended, ValueError):
            self._failure = UnexpectedAnswer("%s: whether it was refused isn't known, since the session has ended" % self.command)


class Channel:
    """A program that runs, its standard input, and a thread that reads its standard output. Several threads may use it at once.

    program  the program, by its path or as it is found on PATH; or a sequence of it and words of its own
    memory   how many bytes of addresses it may have (RLIMIT_AS); past it commands are refused as "out of memory"
    cpu      how many seconds of a processor it may take (RLIMIT_CPU); then the kernel ends it by SIGXCPU

    OSError where the program can't be run; ValueError or PermissionError for a limit that can't be set."""

    def __init__(self, program: str | os.PathLike[str] | Sequence[str] = "dctrl-cache", *, memory: int | None = None,
                 cpu: int | None = None) -> None:
        if any(limit is not None and limit < 1 for limit in (memory, cpu)):
            raise ValueError("a limit is at least 1")
        words = [os.fspath(program)] if isinstance(program, (str, os.PathLike)) else list(program)
        self._errors = tempfile.TemporaryFile()
        self._process = subprocess.Popen(words, stdin=subprocess.PIPE, stdout=subprocess.PIPE, stderr=self._errors, bufsize=0)
        self._limit(memory, cpu)
        assert self._process.stdin is not None and self._process.stdout is not None
        self._input = self._process.stdin
        self._output = self._process.stdout
        self._writing = threading.RLock()
        self._changed = threading.Condition()
        self._waiting: deque[Answer] = deque()
        self._doubtful: dict[Answer, tuple[bytes, Refused]] = {}
        self._searched = 0
        self._lost = False
        self._lines = 0
        self._ended: Ended | None = None
        self._reader = threading.Thread(target=self._read, name="dctrl-cache reader", daemon=True)
        self._reader.start()

    def _limit(self, memory: int | None, cpu: int | None) -> None:
        """Sets the limits of the process. It waits for its first command, so they come in time, and no code of ours has to run between fork
        and exec, where other threads may hold locks."""
        try:
            if memory is not None:
                resource.prlimit(self._process.pid, resource.RLIMIT_AS, (memory, memory))
            if cpu is not None:
                resource.prlimit(self._process.pid, resource.RLIMIT_CPU, (cpu, cpu + 1))
        except BaseException:
            self._process.kill()
            self._process.communicate()
            self._errors.close()
            raise

    @property
    def pid(self) -> int:
        """The number of the process."""
        return self._process.pid

    def submit(self, line: Text, body: Text | None = None) -> Answer:
        """Writes a command and returns at once, so that any number of commands can be written before an answer is read.

        ValueError, before anything is written: a command of more than one line, a body with a line of one dot, a command that has a body
        without one, and a body of a command that has none. Ended where the program has ended."""
        return self.submit_many([(line, body)])[0]

    def submit_many(self, commands: Iterable[Text | tuple[Text, Text | None]]) -> list[Answer]:
        """Writes commands, each a line or a pair of a line and a body. ValueError is raised before any is written."""
        pairs = [command if isinstance(command, tuple) else (command, None) for command in commands]
        texts = [(to_bytes(line), None if body is None else to_bytes(body)) for line, body in pairs]
        scripts = [script.script_text(line, body) for line, body in texts]
        with self._writing:
            answers = [self._expect(line, text) for (line, _), text in zip(texts, scripts)]
            self._write(b"".join(text + answer._question for text, answer in zip(scripts, answers)))
        return answers

    def _ask(self, line: bytes) -> bytes:
        """Runs a filter whose answer is taken for a refusal where it reads as one."""
        with self._writing:
            answer = self._expect(line, line + b"\n")
            answer._can_print_refusals = False
            self._write(line + b"\n" + answer._question)
        return answer.result()

    def submit_last(self, line: Text, body: Text | None = None) -> Answer:
        """Writes a last command and ends the input, without what would end a body: the answer is what a script has that ends so."""
        if script.name_of(to_bytes(line)) not in script.WITH_BODY:
            answer = self.submit(line, body)
            self.settle()
            with self._writing:
                self._input.close()
            return answer
        self.settle()
        with self._writing:
            data = to_bytes(line) + (b"\n" if body is None else b"\n" + script.checked_body(to_bytes(body)))
            answer = self._expect(to_bytes(line), data)
            answer._mark = b""
            self._write(data)
            self._input.close()
        return answer

    def _expect(self, line: bytes, text: bytes) -> Answer:
        """Takes the numbers of the lines that are about to be written."""
        lines = text.count(b"\n")
        answer = Answer(self, line, self._lines + 1, lines)
        self._lines += lines + 1
        with self._changed:
            if self._ended is not None and self._ended.status not in (0, 1):
                raise self._ended
            if self._input.closed:
                raise ValueError("the session is closed")
            self._waiting.append(answer)
        return answer

    def _write(self, data: bytes) -> None:
        """Writes all. What an interruption left half said can't be taken back: the program is ended then."""
        view = memoryview(data)
        try:
            while view:
                view = view[os.write(self._input.fileno(), view):]
        except BrokenPipeError:
            self._reader.join()
            assert self._ended is not None
            raise self._ended from None
        except BaseException:
            self._process.kill()
            raise

    def _read(self) -> None:
        """The thread that reads: it gives each answer to the command that it is of. Where it can't go on, the program is ended, so that
        nobody waits for ever."""
        buffer = bytearray()
        try:
            while piece := os.read(self._output.fileno(), _PIECE):
                buffer += piece
                with self._changed:
                    self._take(buffer)
                    self._changed.notify_all()
        except BaseException:
            self._process.kill()
            raise
        finally:
            self._take_end(buffer)

    def _take_end(self, buffer: bytearray) -> None:
        """Takes the end of the program, and gives it to all that is not answered."""
        status = self._process.wait()
        self._errors.seek(0)
        lines = to_text(self._errors.read()).splitlines()
        with self._changed:
            if status in (0, 1):
                self._take_last(bytes(buffer))
            self._ended = Ended(lines[0] if lines else "", status)
            for answer in self._waiting:
                answer._failure = self._ended
            self._waiting.clear()
            self._lost = False
            self._changed.notify_all()

    def _take(self, buffer: bytearray) -> None:
        """Takes the answers that stand whole in the buffer."""
        start = 0
        while self._waiting and self._waiting[0]._mark:
            answer, begin = self._waiting[0], max(start, self._searched)
            place = buffer.find(answer._mark, begin)
            if place >= 0:
                self._waiting.popleft()._finish(bytes(buffer[start:place]))
                start = place + len(answer._mark)
            else:
                self._lost = self._lost or buffer.find(answer._no_mark, begin) >= 0
                if not self._lost or not self._take_unmarked(buffer, start):
                    break
                start = 0
            self._searched, self._lost = 0, False
        del buffer[:start]
        self._searched = max(0, len(buffer) - _OVERLAP)

    def _take_unmarked(self, buffer: bytearray, start: int) -> bool:
        """Takes answers whose marks were refused where memory ran out: a later mark has come, and theirs come no more."""
        for count, answer in enumerate(self._waiting):
            place = buffer.find(answer._mark, start) if count and answer._mark else -1
            if place >= 0:
                self._split(bytes(buffer[start:place]), [self._waiting.popleft() for _ in range(count)], self._waiting.popleft())
                del buffer[:place + len(answer._mark)]
                return True
        return False

    def _take_last(self, text: bytes) -> None:
        """Takes what stands behind the last mark when the program has ended by itself: answers whose marks were refused, and that of a last
        command."""
        answers = list(self._waiting)
        if not answers or (answers[0]._mark and answers[0]._no_mark not in text):
            return
        self._waiting.clear()
        last = None if answers[-1]._mark else answers.pop()
        self._split(text, answers, last)

    @staticmethod
    def _split(text: bytes, answers: list[Answer], last: Answer | None) -> None:
        """Parts the answers whose marks were refused. Where a text of a stanza reads as such a refusal, nobody can tell which it is."""
        for answer in answers:
            pieces = text.split(answer._no_mark)
            if len(pieces) != 2:
                failure = UnexpectedAnswer("there was no memory for the ends of the answers, which can't be told apart")
                for lost in [*answers, *([last] if last else [])]:
                    lost._text, lost._failure = None, failure
                return
            answer._finish(pieces[0])
            text = pieces[1]
        if last is not None:
            last._finish(text)

    def _wait(self, answer: Answer, timeout: float | None) -> None:
        """Waits for an answer. Where its mark seems to be refused, others are asked for, which show whether it was."""
        end = None if timeout is None else time.monotonic() + timeout
        trials = 0
        while True:
            with self._changed:
                left = None if end is None else max(0.0, end - time.monotonic())
                self._changed.wait_for(lambda: self._is_there(answer) or self._lost, left)
                if self._is_there(answer):
                    doubt = self._doubtful.pop(answer, None)
                    break
                if end is not None and time.monotonic() >= end:
                    raise TimeoutError("no answer within %s seconds to %s" % (timeout, answer.command))
            trials += 1
            self._ask_again(trials)
        if doubt is not None:
            answer._decide(*doubt)
            with self._changed:
                self._changed.notify_all()

    def _is_there(self, answer: Answer) -> bool:
        return answer.done() or answer in self._doubtful

    def _ask_again(self, trials: int) -> None:
        """Asks for one more end of an answer; ends a program that has no memory for any."""
        if trials > _TRIALS:
            self._process.kill()
            self._reader.join()
            return
        time.sleep(_PAUSE if trials > 1 else 0)
        try:
            self.submit(b"")
        except (Ended, ValueError):
            return

    def settle(self) -> None:
        """Waits until all that was written is answered, whatever the answers are."""
        while True:
            with self._changed:
                left = [self._waiting[-1]] if self._waiting else list(self._doubtful)[:1]
            if not left:
                return
            self._wait(left[0], None)

    def kill(self) -> None:
        """Ends the program at once. What it hasn't answered raises Ended."""
        self._process.kill()
        self._finish()

    def close(self) -> int:
        """Ends the input, waits for what isn't answered yet, and returns the exit status: 0 where nothing was refused, else 1.

        Ended where the program ended before, or not by itself. A session that is closed again returns the same."""
        if not self._input.closed:
            self.settle()
        self._finish()
        assert self._ended is not None
        if self._ended.status not in (0, 1):
            raise self._ended
        return self._ended.status

    def _finish(self) -> None:
        with self._writing:
            self._input.close()
        self._reader.join()
        self._output.close()
        self._errors.close()
