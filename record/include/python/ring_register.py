"""ring_register.py: records the reads and writes of a register with one writer and up to 64 readers, for `lamport_ring audit --register`.

    rec = Recorder(readers=2)                                      room for 200,000 operations of each thread
    register = rec.watch(MyRegister())                             its write(v) and read() are recorded, by the thread that calls them
    when all threads were joined:  rec.print("register 0 4", sys.stdout);  rec.restart() for a next round

or by hand:
    writer:    rec.write(v);   my_write(v);     rec.wrote()        or  with rec.writing(v): my_write(v)
    reader 1:  rec.read(1);    v = my_read();   rec.got(1, v)      or  with rec.reading(1) as got: got(my_read())

A write of the value that the register holds is a write: record it. A read that finds no value is recorded with a number that is not a
value: 4 if the first line is "register 0 4".

Why there are no false alarms: each start takes the next ticket of one counter before the operation, each end after it, so an interval is only
ever widened, and with wider intervals each class permits what it did and more. next() of a count is one step of C under the interpreter's lock, and that
lock orders the threads: if the ticket of an end is smaller than that of a start, the one operation happens before the other. (A build without
that lock needs a lock round next.) The logs are there before the recording begins, but CPython allocates its numbers as it goes. If a
thread has no more room the history is cut there, for all threads: a first part of what happened, whose first line begins with `cut`; print
reports on stderr whose log was full, or that nothing was recorded.

The interpreter lets threads take turns each 5 ms, so that few operations overlap: sys.setswitchinterval(1e-6) makes it more."""
import array
import contextlib
import heapq
import itertools
import sys
import threading

WORDS = ("write", "read", "wrote", "got")
NEVER = 2**64 - 1
READERS = 64


class Log:
    """Of each event its kind and how many numbers it has, its ticket, the number."""

    def __init__(self, room):
        self.words, self.used, self.cut = array.array("Q", bytes(8 * room)), 0, NEVER

    def event(self, ticket, kind, *numbers):
        if self.cut == NEVER:
            number, used = next(ticket), self.used
            end = used + 2 + len(numbers)
            if end > len(self.words):
                self.cut = number
                return
            self.words[used] = kind | len(numbers) << 8
            self.words[used + 1] = number
            for place, value in enumerate(numbers, used + 2):
                self.words[place] = value
            self.used = end

    def events(self, cut, name):
        at = 0
        while at < self.used and self.words[at + 1] < cut:
            end = at + 2 + (self.words[at] >> 8)
            yield self.words[at + 1], name, self.words[at] & 255, self.words[at + 2 : end]
            at = end


class Watched:
    """A register whose writes and reads are recorded; a thread that reads has the next number of a reader."""

    def __init__(self, recorder, register, write, read):
        self._recorder, self._write, self._read = recorder, getattr(register, write), getattr(register, read)
        self._register, self._own, self._numbers = register, threading.local(), itertools.count(1)
        setattr(self, write, self._recorded_write)
        setattr(self, read, self._recorded_read)

    def __getattr__(self, name):
        return getattr(self._register, name)

    def _recorded_write(self, value, *more):
        with self._recorder.writing(value):
            self._write(value, *more)

    def _recorded_read(self, *words):
        if not hasattr(self._own, "reader"):
            self._own.reader = next(self._numbers)
        with self._recorder.reading(self._own.reader) as got:
            return got(self._read(*words))


class Recorder:
    def __init__(self, readers=1, room=1 << 20):
        """The room is that for the numbers of each thread: an operation takes 5."""
        if not 1 <= readers <= READERS:
            raise ValueError(f"{readers} readers: there may be 1 to {READERS}")
        # (the log of the writer, then those of the readers)
        self.ticket, self.logs = itertools.count(), [Log(room) for _ in range(readers + 1)]

    def write(self, value):
        self.logs[0].event(self.ticket, 0, value)

    def wrote(self):
        self.logs[0].event(self.ticket, 2)

    def read(self, reader):
        self._log(reader).event(self.ticket, 1)

    def got(self, reader, value):
        self._log(reader).event(self.ticket, 3, value)

    def _log(self, reader):
        if not 1 <= reader < len(self.logs):
            raise ValueError(f"reader {reader}: the Recorder was made for {len(self.logs) - 1}")
        return self.logs[reader]

    @contextlib.contextmanager
    def writing(self, value):
        """The block under it is a write of the value. (One that raises has not ended.)"""
        self.write(value)
        yield
        self.wrote()

    @contextlib.contextmanager
    def reading(self, reader):
        """The block under it is a read, which calls the given function once with the value read. (One that does not has not ended.)"""
        seen = []

        def got(value):
            seen.append(value)
            return value

        self.read(reader)
        yield got
        for value in seen[:1]:
            self.got(reader, value)

    def watch(self, register, write="write", read="read"):
        """The register, with these of its methods recorded: the first argument of the one is what it writes, the other returns what it read."""
        return Watched(self, register, write, read)

    def restart(self):
        """Forgets what was recorded, between two rounds of a test: while no thread records."""
        self.ticket = itertools.count()
        for log in self.logs:
            log.used, log.cut = 0, NEVER

    def cut(self):
        return min(log.cut for log in self.logs)

    def lines(self, head):
        """The lines of the recording; head is its first one: "register 0 4" (the first value, and that the values are below 4) or "register 0"."""
        cut = self.cut()
        yield ("" if cut == NEVER else "cut ") + head
        names = ["W", *(f"R{i}" for i in range(1, len(self.logs)))]
        for _, name, kind, numbers in heapq.merge(*(log.events(cut, name) for log, name in zip(self.logs, names))):
            yield " ".join([name, WORDS[kind], *map(str, numbers)])

    def tell(self):
        """Reports on stderr that the history is cut, or that nothing was recorded."""
        cut = self.cut()
        if cut != NEVER:
            full = next(i for i, log in enumerate(self.logs) if log.cut == cut)
            name, room = f"R{full}" if full else "W", len(self.logs[full].words)
            print(f"ring_register: the log of {name} was full after {room} words: the recording is a prefix of what happened", file=sys.stderr)
        elif not any(log.used for log in self.logs):
            print("ring_register: nothing was recorded: is it this Recorder that was called, and were all threads joined?", file=sys.stderr)

    def print(self, head, out):
        """Prints the recording; head is its first line: "register 0 4" or "register 0". That the history is cut, or that nothing was
        recorded, is reported on stderr."""
        self.tell()
        if hasattr(out, "reconfigure"):
            out.reconfigure(newline="\n")  # (on Windows a line would end in CR LF, which the audit refuses)
        for line in self.lines(head):
            out.write(line + "\n")
