"""A client of the program `gclq`: it holds the program between two pipes, and gives its answers as values.

    >>> with Gclq() as g:
    ...     play = g.add("macbeth")
    ...     for hit in g.find('("<line>".."</line>") > "king"'):
    ...         print(hit.file.name, hit.line, hit.text)
    macbeth 129 <line>All hail, Macbeth, thou shalt be king hereafter!</line>
    macbeth 170 <line>A prosperous gentleman; and to be king</line>
    macbeth 195 <line>You shall be king.</line>

The program answers with addresses, the numbers of words and tags. To show lines and text, the client reads a file once more at the first
answer in it, cuts it into words and tags as the program does, and keeps that. Nothing of this client is proved.
"""
import bisect
import queue
import re
import subprocess
import tempfile
import threading
from array import array
from dataclasses import dataclass
from pathlib import Path
from typing import Callable, Dict, Iterator, List, Optional, Sequence, Tuple

# A word, or a tag: its slash, its name, and what comes after the name. Every other byte separates.
TOKEN = re.compile(rb"[A-Za-z0-9\x80-\xff]+|<(/?)[A-Za-z][A-Za-z0-9_.:-]*([^<>]*)>")


class GclqError(Exception):
    """Every error of this client."""


class Refused(GclqError):
    """A line was refused. It changed nothing, and the program goes on."""


class QueryRefused(Refused):
    """A text is no query: `at` is the index of the character where its first fault is, and `kind` says what is wrong there."""

    def __init__(self, query: str, at: int, kind: str) -> None:
        super().__init__(f"query at {at}: {kind}\n  {query}\n  {' ' * at}^")
        self.query, self.at, self.kind = query, at, kind


class Ended(GclqError):
    """The program ended, with this status and message. What was not saved is gone."""

    def __init__(self, status: int, message: str) -> None:
        super().__init__(message or f"gclq ended with status {status}")
        self.status = status


class NoAnswer(GclqError):
    """No line of an answer came in time. The program was killed, and what was not saved is gone."""


class FileChanged(GclqError):
    """A file no longer has the words and tags that it had when it was added."""


@dataclass(frozen=True)
class File:
    """A file of the collection: `first` and `last` are the addresses of its boundaries."""

    id: int
    first: int
    last: int
    name: str


@dataclass(frozen=True)
class Hit:
    """An interval of an answer, and what stands there in the file that it begins in, up to the end of that file.

    Lines count from 1. An interval that begins at no file, as where one was deleted, has no file, line or text.
    """

    first: int
    last: int
    file: Optional[File] = None
    line: Optional[int] = None
    text: Optional[str] = None


class _Text:
    """The bytes of a file, and where each address of it begins and ends. Its boundaries are the two ends of the bytes."""

    def __init__(self, content: bytes) -> None:
        self.content = content
        self.newlines = array("Q", (found.start() for found in re.finditer(b"\n", content)))
        self.begins, self.ends = array("Q", [0]), array("Q", [0])
        for token in TOKEN.finditer(content):
            closes_itself = token[1] == b"" and token[2].endswith(b"/")  # <br/> is two tags in one place
            self.begins.extend([token.start()] * (1 + closes_itself))
            self.ends.extend([token.end()] * (1 + closes_itself))
        self.begins.append(len(content))
        self.ends.append(len(content))

    def part(self, first: int, last: int) -> Tuple[int, str]:
        begin, end = self.begins[first], self.ends[min(last, len(self.ends) - 1)]
        return bisect.bisect_left(self.newlines, begin) + 1, self.content[begin:end].decode(errors="replace")


class Gclq:
    """A running `gclq`, to be used by one thread at a time.

    Names of files begin in `folder`. No line of an answer is waited for longer than `timeout` seconds, if that is not None. `options` are
    words of the command line, as `["--readers=8"]`.
    """

    def __init__(self, program: str = "gclq", folder: str = ".", timeout: Optional[float] = 60, options: Sequence[str] = ()) -> None:
        self._folder, self._timeout = Path(folder), timeout
        self._know([])
        self._texts: Dict[int, _Text] = {}
        self._watches: Dict[int, Callable[[bool, Hit], None]] = {}
        self._lines: "queue.SimpleQueue[bytes]" = queue.SimpleQueue()
        self._errors = tempfile.TemporaryFile()
        pipe = subprocess.PIPE
        self._program = subprocess.Popen([program, *options], cwd=folder, stdin=pipe, stdout=pipe, stderr=self._errors)
        self._reader = threading.Thread(target=self._read, daemon=True)
        self._reader.start()

    def __enter__(self) -> "Gclq":
        return self

    def __exit__(self, *_: object) -> None:
        self.close()

    def close(self) -> int:
        """Ends the program, and gives its exit status. What was not saved is gone."""
        try:
            self._program.stdin.close()
        except BrokenPipeError:
            pass  # it had ended before it took the last line
        try:
            self._program.wait(self._timeout)
        except subprocess.TimeoutExpired:
            self._program.kill()
        self._reader.join()
        self._program.stdout.close()
        self._errors.close()
        return self._program.wait()

    def add(self, name: str) -> File:
        """Adds the file of this name. One name added twice is two files."""
        _, number, first, last = self._ask(f"add {_name(name)}").split()
        file = File(int(number), int(first), int(last), name)
        self._files.append(file)
        self._firsts.append(file.first)
        self._tell(self._hits_of(self._changes()))
        return file

    def delete(self, file: File) -> None:
        """Takes a file out of the collection. The file itself stays."""
        self._ask(f"del {file.id}")
        hits = self._hits_of(self._changes())  # their texts, while the file is known
        self._know([other for other in self._files if other.id != file.id])
        self._texts.pop(file.id, None)
        self._tell(hits)

    def find(self, query: str) -> Iterator[Hit]:
        """All intervals of a query, in order. Their addresses are read before the first hit is given; texts one hit after the other."""
        return self._hits("find", query)

    def top(self, most: int, query: str) -> Iterator[Hit]:
        """The first intervals of a query, `most` at the most."""
        return self._hits(f"top {most}", query)

    def count(self, query: str) -> int:
        """The number of intervals of a query."""
        return int(self._ask("count", query).split()[1])

    def files(self) -> List[File]:
        """The files that were added or opened, and not deleted."""
        return [File(int(number), int(first), int(last), name) for number, first, last, name in self._rows("files")]

    def merge(self) -> None:
        """Asks that the parts of the index be made one. No answer depends on it."""
        self._ask("merge")

    def save(self, name: str) -> int:
        """Writes the collection as an image, in place of whatever the name holds, and gives its length in bytes."""
        return int(self._ask(f"save {_name(name)}").split()[1])

    def open(self, name: str) -> List[File]:
        """Takes the files of an image, before anything is added."""
        self._ask(f"open {_name(name)}")
        changes = self._changes()
        files = self.files()
        self._know(list(files))
        self._tell(self._hits_of(changes))
        return files

    def watch(self, query: str, told: Callable[[bool, Hit], None]) -> int:
        """Has each edit from now on tell what it changes of the query's intervals, and gives the number of the watch.

        `told(came, hit)` is called before `add`, `delete` or `open` returns, once for each interval that came or went.
        """
        number = int(self._ask("watch", query).split()[1])
        self._watches[number] = told
        return number

    def unwatch(self, number: int) -> None:
        """Ends the watch with this number."""
        self._ask(f"unwatch {number}")
        del self._watches[number]

    def _know(self, files: List[File]) -> None:
        self._files, self._firsts = files, [file.first for file in files]

    def _read(self) -> None:
        for line in self._program.stdout:
            self._lines.put(line)
        self._lines.put(b"")

    def _line(self) -> str:
        try:
            line = self._lines.get(timeout=self._timeout)
        except queue.Empty:
            self._program.kill()
            raise NoAnswer(f"gclq gave no answer within {self._timeout} seconds") from None
        except KeyboardInterrupt:
            self._program.kill()  # what is left of this answer would be taken for the next one
            raise
        if line:
            return line.decode(errors="replace").rstrip("\n")
        self._lines.put(b"")
        status = self._program.wait()
        self._errors.seek(0)
        raise Ended(status, self._errors.read().decode(errors="replace").strip())

    def _ask(self, command: str, query: str = "") -> str:
        """Sends a line, and gives the first line of its answer. A query may be on several lines: in it a line's end is a blank."""
        query = query.replace("\n", " ").replace("\r", " ")
        asked = query.strip(" \t")
        try:
            self._program.stdin.write(f"{command} {asked}".rstrip(" ").encode() + b"\n")
            self._program.stdin.flush()
        except BrokenPipeError:
            pass  # it has ended, as `_line` finds
        answer = self._line()
        fault = re.fullmatch(r"! query at (\d+): (.*)", answer)
        if fault:
            before = asked.encode()[: int(fault[1])].decode(errors="replace")
            raise QueryRefused(query, query.index(asked) + len(before), fault[2])
        if answer.startswith("! "):
            raise Refused(answer[2:])
        return answer

    def _rows(self, command: str, query: str = "") -> Iterator[List[str]]:
        """The fields of each line of an answer, up to its last line. Only the fourth, a name, may have blanks."""
        row = self._ask(command, query)
        while not row.startswith("= "):
            yield row.split(" ", 3)
            row = self._line()

    def _hits(self, command: str, query: str) -> Iterator[Hit]:
        bounds = array("Q", (int(bound) for row in self._rows(command, query) for bound in row))
        return (self._hit(first, last) for first, last in zip(bounds[::2], bounds[1::2]))

    def _changes(self) -> List[List[str]]:
        """The lines that tell the watches of an edit. Their number is not told, so a count that costs nothing is asked for behind them."""
        return list(self._rows("count", "[1]")) if self._watches else []

    def _hits_of(self, changes: List[List[str]]) -> List[Tuple[int, bool, Hit]]:
        return [(int(number), sign == "+", self._hit(int(first), int(last))) for sign, number, first, last in changes]

    def _tell(self, hits: List[Tuple[int, bool, Hit]]) -> None:
        for number, came, hit in hits:
            if number in self._watches:  # a call before it may have ended this watch
                self._watches[number](came, hit)

    def _hit(self, first: int, last: int) -> Hit:
        at = bisect.bisect_right(self._firsts, first) - 1
        if at < 0 or self._files[at].last < first:
            return Hit(first, last)
        file = self._files[at]
        if file.id not in self._texts:
            self._texts[file.id] = _Text((self._folder / file.name).read_bytes())
        text = self._texts[file.id]
        if len(text.begins) != file.last - file.first + 1:
            raise FileChanged(f"{file.name} has changed since it was added")
        return Hit(first, last, file, *text.part(first - file.first, last - file.first))


def _name(name: str) -> str:
    if not name or name != name.strip(" ") or any(ord(character) < 32 or ord(character) == 127 for character in name):
        raise ValueError(f"a script cannot name {name!r}: it is empty, has a blank at an end, or control characters")
    return name
