"""Random small cases for compare.py: runs of two sides in which a side learns what the other did only sometimes, and perhaps not the
last of it. Most replies are ones that a queue with this knowledge could give; some are arbitrary."""
from orders import CONSUMER, PRODUCER, Call, Case, stored_by, taken_by

HEADS = (
    "queue",
    *("queue 1",) * 3,
    *("queue 2",) * 4,
    *("queue 3",) * 3,
    "queue 4",
    "queue 0 1",
    "queue 0 2",
    "queue 1 2",
    "queue 1 3",
    "queue 2 3",
    "queue 2 5",
    "queue 18446744073709551615",
    "queue 1 18446744073709551615",
)
ENDS = (("stored", "some", "full", "short", "nothing", "closed"), ("item", "some", "empty", "short", "nothing", "closed"))
INFINITE = float("inf")
# a take may ask for all that there are
MANY = 2**64 - 1


def passed_by(call):
    return taken_by(call) if call.begin == "take" else stored_by(call)


class Side:
    """A side of a run being made: its calls, how many have begun and ended, its clock, what it has released, and what it knows."""

    def __init__(self, clock, other):
        self.calls, self.clock, self.known, self.released = [], clock, other - 1, []
        self.ended = self.knows_begun = self.knows_ended = self.passed = 0

    @property
    def under_way(self):
        return len(self.calls) > self.ended


class Run:
    """A case and its lines, drawn from the dice."""

    def __init__(self, dice):
        self.dice = dice
        self.head = dice.choice(HEADS)
        numbers = [int(it) for it in self.head.split(" ")[1:]] or [INFINITE]
        self.full, self.most = numbers[0], numbers[-1]
        clocks = [dice.randint(1, 9), dice.randint(1, 9)]
        self.sides = [Side(clocks[s], clocks[1 - s]) for s in (0, 1)]
        self.lines, self.turn = [self.head], 0
        self.counts_up, self.next_item = dice.random() < 0.7, 0
        # how often a side learns of the other, and releases: the more often, the more is ordered
        self.often = [dice.choice((0.0, 0.1, 0.3, 0.6, 1.0)) for _ in range(3)]
        # how often a side assumes no more than it must, and how often it is wrong
        self.late, self.wrong, self.wild = dice.choice((0.0, 0.5, 0.9)), dice.choice((0.0, 0.0, 0.15)), dice.choice((0.0, 0.0, 0.1))
        self.closes = dice.choice((0.0, 0.05, 0.1, 0.4))
        # the sides whose last call stays under way
        self.stuck = set()
        self.most_calls = [dice.randint(1, 5), dice.randint(1, 5)]
        self.make()

    def make(self):
        cut = self.dice.choice((0.0, 0.0, 0.05))
        for _ in range(40):
            able = [s for s in (0, 1) if s not in self.stuck and (self.sides[s].under_way or len(self.sides[s].calls) < self.most_calls[s])]
            if not able or self.dice.random() < cut:
                break
            for s in (0, 1):
                if self.dice.random() < self.often[2]:
                    self.release(s)
                if self.dice.random() < self.often[s]:
                    self.acquire(s)
            self.event(self.dice.choice(able))

    def release(self, s):
        me = self.sides[s]
        me.released.append((me.clock, len(me.calls), me.ended))
        me.clock += 1

    def acquire(self, s):
        me, other = self.sides[s], self.sides[1 - s]
        if other.released:
            clock, begun, ended = other.released[-1] if self.dice.random() < 0.5 else self.dice.choice(other.released)
            me.known, me.knows_begun, me.knows_ended = max(me.known, clock), max(me.knows_begun, begun), max(me.knows_ended, ended)

    def event(self, s):
        me = self.sides[s]
        is_close = me.under_way and me.calls[-1].begin == "close"
        if self.dice.random() < (0.03 if is_close else 0.002) and not self.turn:
            self.out_of_turn(s)
        elif me.under_way:
            self.end(s)
        else:
            self.begin(s)

    def note(self, s, word, numbers):
        me = self.sides[s]
        self.lines.append(f"{me.clock} {me.known} {'PC'[s]} {word}{''.join(f' {it}' for it in numbers)}")
        return len(self.lines)

    def out_of_turn(self, s):
        me, dice = self.sides[s], self.dice
        call = me.calls[-1] if me.under_way else None
        if not call:
            line = self.note(s, "stored" if s == PRODUCER else "empty", [])
        elif call.begin == "put":
            count = len(call.offered)
            wrong = [("put", [1]), ("close", []), ("stored", [count]), ("stored", [count + 1]), ("some", [count + 1])]
            line = self.note(s, *dice.choice(wrong + [("short", [])] * (count == 1)))
        elif call.begin == "close":
            wrong = [("put", [1]), ("some", [1]), *((word, []) for word in ("close", "stored", "full", "nothing", "short"))]
            line = self.note(s, *dice.choice(wrong))
        else:
            items = list(range(call.wanted + 1)) if call.wanted < MANY else []
            wrong = [("take", []), *((word, items) for word in ("item", "some") if items)]
            line = self.note(s, *dice.choice(wrong + [("short", [])] * (call.wanted == 1)))
        self.turn = line

    def begin(self, s):
        me, dice = self.sides[s], self.dice
        count = dice.choice((1, 1, 2, 2, 3))
        has_closed = any(call.begin == "close" for call in me.calls)
        if s == PRODUCER and dice.random() < self.closes * (1.5 if has_closed else 1 + len(me.calls)):
            call = ("close", [], 0)
            self.note(s, "close", [])
        elif s == PRODUCER:
            call = ("put", [self.item() for _ in range(count)], 0)
            self.note(s, "put", call[1])
        else:
            count = MANY if dice.random() < 0.03 else count
            call = ("take", [], count)
            self.note(s, "take", [count] if count > 1 else [])
        me.calls.append(Call(*call, "", [], me.knows_ended, 0, (len(self.lines), 0)))
        if dice.random() < (0.3 if has_closed else 0.03):
            self.stuck.add(s)

    def item(self):
        self.next_item += 1
        return self.next_item if self.counts_up else self.dice.randint(1, 2)

    def end(self, s):
        me = self.sides[s]
        call = me.calls[-1]
        if call.begin == "close":
            word, numbers = "closed", []
        else:
            word, numbers = (self.end_of_put if s == PRODUCER else self.end_of_take)(call)
        line = self.note(s, word, numbers)
        me.calls[-1] = call._replace(end=word, numbers=numbers, met=me.knows_begun, lines=(call.lines[0], line))
        me.ended += 1
        me.passed += passed_by(me.calls[-1])

    def seen(self, s):
        """How many items this side may assume that the other passed: from what the known calls have passed to what they may have passed."""
        other = self.sides[1 - s]
        known = sum(map(passed_by, other.calls[: self.sides[s].knows_ended]))
        under_way = other.calls[-1] if other.under_way else None
        most = other.passed + (under_way.wanted + len(under_way.offered) if under_way else 0)
        if self.dice.random() < self.wrong:
            return self.dice.choice((known - 1, most + 1))
        return known if self.dice.random() < self.late else self.dice.randint(known, max(known, most))

    def at_will(self, s, count):
        word = self.dice.choice([it for it in ENDS[s] if it != "short" or count > 1])
        some = self.dice.randint(1, count)
        return word, [some] if word == "some" or (word == "stored" and some < count) else []

    def end_of_put(self, call):
        dice, count = self.dice, len(call.offered)
        if dice.random() < self.wild:
            return self.at_will(PRODUCER, count)
        if any(it.begin == "close" for it in self.sides[PRODUCER].calls):
            return dice.choice((("closed", []), ("closed", []), ("nothing", [])))
        bound = self.most if dice.random() < 0.7 else self.full
        room = min(count, max(0, bound - (self.sides[PRODUCER].passed - self.seen(PRODUCER))))
        if room == count and dice.random() < 0.9:
            return dice.choice((("stored", []), ("stored", []), ("some", [count])))
        if room == count:
            return "nothing", []
        why = [("short", [])] if count > 1 else []
        if room == 0:
            return dice.choice(why + [("full", []), ("full", []), ("nothing", [])])
        return dice.choice(why + [("stored", [room]), ("stored", [room]), ("some", [room])])

    def end_of_take(self, call):
        dice, passed = self.dice, self.sides[CONSUMER].passed
        puts = self.sides[PRODUCER].calls
        items = [item for put in puts for item in put.offered[: passed_by(put) if put.end else None]]
        if self.counts_up and dice.random() < 0.1:
            items.append(self.next_item + 1)
        coming = items[passed:][: max(0, min(call.wanted, self.seen(CONSUMER) - passed))]
        if dice.random() < self.wild:
            word, some = self.at_will(CONSUMER, min(call.wanted, 3))
            coming = (coming + [dice.randint(1, 4) for _ in range(3)])[: some[0] if some else 1]
            return word, coming if word in ("item", "some") else []
        if coming and dice.random() < self.wild:
            coming[-1] = dice.randint(1, 5)
        if len(coming) == call.wanted:
            return dice.choice(("item", "item", "some")), coming
        why = ["short"] if call.wanted > 1 else []
        if coming:
            word = dice.choice(why + ["item", "item", "some"])
            return word, coming if word != "short" else []
        has_closed = any(it.begin == "close" for it in puts)
        told = any(it.end == "closed" for it in self.sides[CONSUMER].calls)
        if dice.random() < (0.9 if told else 0.5 if has_closed else self.wrong * self.closes):
            return "closed", []
        return dice.choice(why + ["empty", "empty", "nothing"]), []

    def case(self):
        return Case((self.full, self.most), (self.sides[0].calls, self.sides[1].calls), self.turn)
