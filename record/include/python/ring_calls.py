"""ring_calls.py: records the calls of a queue with one producer and one consumer thread, for `lamport_ring audit --calls`.

    rec = Recorder(1 << 20)                                        room for this many numbers on each side: a put with its end takes 5
    producer:  rec.put(v);   rec.stored() if my_put(v) else rec.full()
               rec.close();  my_close();  rec.closed()
    consumer:  rec.take();   v = my_take();  rec.item(v) if v is not None else rec.empty()             (rec.told(): empty and closed)
    when both threads were joined:  rec.write('queue 8', file);  rec.restart() for a next round

Why there are no false alarms: each start takes the next ticket of one counter before the call, each end after it, so an interval is only
ever widened. next() of a count is one step of C under the interpreter's lock, and that lock orders the threads: where the ticket of an end
is below that of a begin, the one call happens before the other. (A build without that lock needs a lock round next.) The logs are there
before the recording begins, but CPython allocates its numbers as it goes. If the log of a side is full the history is cut there,
for both sides: a first part of what happened, whose first line begins with `cut`; write says on stderr whose log was full, and
where no call was recorded."""
import array
import heapq
import itertools
import sys

WORDS = (
    "P put",
    "P close",
    "C take",
    "P stored",
    "P some",
    "P full",
    "P short",
    "P nothing",
    "P closed",
    "C item",
    "C some",
    "C empty",
    "C short",
    "C nothing",
    "C closed",
)
NEVER = 2**64 - 1


class Log:
    """Of each event its kind and how many numbers it has, its ticket, the numbers."""

    def __init__(self, room):
        self.words, self.used, self.cut = array.array("Q", bytes(8 * room)), 0, NEVER

    def event(self, ticket, kind, numbers):
        if self.cut == NEVER:
            number, used = next(ticket), self.used
            end = used + 2 + len(numbers)
            if end > len(self.words):
                self.cut = number
                return
            self.words[used] = kind | len(numbers) << 8
            self.words[used + 1] = number
            for place, value in enumerate(numbers, used + 2):
                self.words[place] = value
            self.used = end

    def events(self, cut):
        at = 0
        while at < self.used and self.words[at + 1] < cut:
            end = at + 2 + (self.words[at] >> 8)
            yield self.words[at + 1], self.words[at] & 255, self.words[at + 2 : end]
            at = end


class Calls:
    """The events of both sides by their names: of the producer by _p, of the consumer by _c, each with its kind and its numbers."""

    def put(self, *items):
        return self._p(0, items)

    def close(self):
        return self._p(1)

    def stored(self):
        return self._p(3)

    def stored_of(self, stored, offered):
        """Of the items offered the first ones were stored, as many as there was room for."""
        return self._p(3, (stored,) if stored < offered else ()) if stored else self.full()

    def some(self, stored):
        """The first `stored` items were stored, with no reason given why no more."""
        return self._p(4, (stored,)) if stored else self.put_nothing()

    def full(self):
        return self._p(5)

    def put_short(self):
        """An all-or-nothing put of two items or more: none was stored, since there was not room for all."""
        return self._p(6)

    def put_nothing(self):
        """None was stored, with no reason given."""
        return self._p(7)

    def closed(self):
        """A close ends, or a put that found the queue closed."""
        return self._p(8)

    def take(self, most=1):
        return self._c(2, (most,) if most > 1 else ())

    def item(self, *items):
        return self._c(9, items) if items else self.empty()

    def some_items(self, *items):
        """These items, with no reason given why no more."""
        return self._c(10, items) if items else self.take_nothing()

    def empty(self):
        return self._c(11)

    def take_short(self):
        """An all-or-nothing take of two items or more: there were not enough."""
        return self._c(12)

    def take_nothing(self):
        return self._c(13)

    def told(self):
        """Empty, and closed."""
        return self._c(14)


class Recorder(Calls):
    def __init__(self, room):
        self.ticket, self.puts, self.takes = itertools.count(), Log(room), Log(room)

    def _p(self, kind, numbers=()):
        self.puts.event(self.ticket, kind, numbers)

    def _c(self, kind, numbers=()):
        self.takes.event(self.ticket, kind, numbers)

    def restart(self):
        """Forgets what was recorded, between two rounds of a test: while no thread records."""
        self.ticket = itertools.count()
        for log in (self.puts, self.takes):
            log.used, log.cut = 0, NEVER

    def cut(self):
        return min(self.puts.cut, self.takes.cut)

    def events(self):
        """The kind and the numbers of each event of both sides, in the order of their tickets, up to where the history is cut."""
        cut = self.cut()
        for _, kind, numbers in heapq.merge(self.puts.events(cut), self.takes.events(cut)):
            yield kind, numbers

    def lines(self, head):
        """The lines of the recording; head is its first one: "queue 8", "queue 1 512" or "queue"."""
        yield ("" if self.cut() == NEVER else "cut ") + head
        for kind, numbers in self.events():
            yield " ".join([WORDS[kind], *map(str, numbers)])

    def tell(self):
        """Prints to stderr if the history is cut, or has no call."""
        if self.cut() != NEVER:
            side, log = ("producer", self.puts) if self.puts.cut < self.takes.cut else ("consumer", self.takes)
            print(f"ring_calls: the {side}'s log was full after {len(log.words)} words: the recording is a prefix of what happened", file=sys.stderr)
        elif self.puts.used + self.takes.used == 0:
            print("ring_calls: no call was recorded: is it this Recorder that was called, and were both threads joined?", file=sys.stderr)

    def write(self, head, out):
        """Writes the recording; head is its first line: "queue 8", "queue 1 512" or "queue". If the history is cut, or has no
        call, prints this to stderr."""
        self.tell()
        if hasattr(out, "reconfigure"):
            out.reconfigure(newline="\n")  # (on Windows a line would end in CR LF, which the audit refuses)
        for line in self.lines(head):
            out.write(line + "\n")
