"""A model of a ring that breaks one rule, independent of the page and its module, and a search of all its plays: which goals each of these rings can
reach, and with how few keys. (The tests play what it finds in the page, where the proved audit judges it.)

    page/tests/plays.py                       prints what each ring of the first challenge reaches: the goal, the number of keys, and the keys"""
import collections
import sys

RINGS = ("", "count-before-cell", "no-second-scan", "small-modulus", "clears-first", "clears-upwards")
TWICE, NEVER, EMPTY, CLOSED, OTHER = (
    "take an item twice",
    "take what was never put",
    "get Empty with an item inside",
    "get Closed with an item inside",
    "another fault",
)
# The key for a side's next event, and the key for all events up to the end of its call.
KEYS = {("P", False): "p", ("C", False): "c", ("P", True): "P", ("C", True): "C"}

Putter = collections.namedtuple("Putter", "stored count stage storing row")
Taker = collections.namedtuple("Taker", "used taken count stage most read digits row seen")
# `p_open` and `c_open` are the accesses under way, each with whether the other side's access of the same bit overlapped it.
State = collections.namedtuple("State", "p c bits p_open c_open fault")


class Ring:
    """A script without a schedule, and the ring that plays it."""

    def __init__(self, wrong, capacity, modulus, width, items, takes, close, batch=1, take_batch=1):  # pylint: disable=too-many-arguments
        self.wrong, self.capacity, self.width, self.items, self.takes, self.close = wrong, capacity, width, tuple(items), takes, close
        self.batch, self.take_batch, self.modulus = batch, take_batch, modulus - (wrong == "small-modulus")

    def start(self):
        row = (1,) + (0,) * (self.modulus - 1)
        bits = frozenset({("s", 0), ("r", 0)})
        return State(Putter(0, 0, ("between",), 0, row), Taker(0, (), 0, ("between",), 0, (), 0, row, 0), bits, None, None, None)

    # ---- what a side does next --------------------------------------------------------------------------------------------

    def row_write(self, row, value):
        """The next write of a count: the index of the bit and its value, or None once the count shows the value."""
        below = [at for at in range(value) if row[at]]
        clear = (below[0] if self.wrong == "clears-upwards" else below[-1]) if below else None
        if clear is not None and (row[value] or self.wrong == "clears-first"):
            return clear, 0
        return None if row[value] else (value, 1)

    def next_put(self, it):
        """The producer's next access, as (bit, value written or None), or None."""
        kind, *at = it.stage
        if kind == "between":
            return (("r", 0), None) if it.stored < len(self.items) else (("x", 0), 1) if self.close else None
        if kind == "scan":
            return ("r", at[0]), None
        if kind == "store":
            done, digit = at
            return ("c", (it.stored + done) % self.capacity, digit), self.items[it.stored + done] >> digit & 1
        if kind == "count":
            place, value = self.row_write(it.row, at[0])
            return ("s", place), value
        return None

    def next_take(self, it):
        kind, *at = it.stage
        if kind == "between":
            return (("s", 0), None) if self.wanted(it) > 0 else None
        if kind in ("scan", "again"):
            return ("s", at[0]), None
        if kind == "look":
            return ("x", 0), None
        if kind == "read":
            return ("c", (len(it.taken) + len(it.read)) % self.capacity, at[0]), None
        if kind == "count":
            place, value = self.row_write(it.row, at[0])
            return ("r", place), value
        return None

    def wanted(self, it):
        return min(self.take_batch, self.takes - it.used)

    # ---- the state after an access has ended -------------------------------------------------------------------------------

    def end_put(self, it, bit, answer):
        """The producer after its access has ended, and whether its call has ended too."""
        kind, *at = it.stage
        if kind in ("between", "scan") and bit[0] == "r":
            zeros = at[0] if at else 0
            if not answer:
                return it._replace(stage=("scan", zeros + 1) if zeros + 1 < self.modulus else ("stuck",)), False
            free = max(0, self.capacity - (it.count - zeros) % self.modulus)
            most = min(free, self.batch, len(self.items) - it.stored)
            if most == 0:
                return it._replace(stage=("between",)), True
            count = ("count", (it.count + most) % self.modulus)
            return it._replace(storing=most, stage=count if self.wrong == "count-before-cell" else ("store", 0, 0)), False
        if kind == "between":
            return it._replace(stage=("over",)), True
        if kind == "store":
            done, digit = at
            if digit + 1 < self.width:
                return it._replace(stage=("store", done, digit + 1)), False
            if done + 1 < it.storing:
                return it._replace(stage=("store", done + 1, 0)), False
            if self.wrong == "count-before-cell":
                return it._replace(stored=it.stored + it.storing, stage=("between",)), True
            return it._replace(stage=("count", (it.count + it.storing) % self.modulus)), False
        value = at[0]
        row = tuple(answer if at == bit[1] else old for at, old in enumerate(it.row))
        if self.row_write(row, value) is not None:
            return it._replace(row=row), False
        if self.wrong == "count-before-cell":
            return it._replace(row=row, count=value, stage=("store", 0, 0)), False
        return it._replace(row=row, count=value, stored=it.stored + it.storing, stage=("between",)), True

    def end_take(self, it, bit, answer):
        """The consumer after its access has ended, and what its call returned: items, "empty", "closed" or None."""
        kind, *at = it.stage
        if kind in ("between", "scan", "again"):
            zeros, again = at[0] if at else 0, kind == "again"
            if not answer:
                stage = ("again" if again else "scan", zeros + 1) if zeros + 1 < self.modulus else ("stuck",)
                return it._replace(stage=stage), None
            ahead = (zeros - it.count) % self.modulus
            most = min(ahead, self.wanted(it)) if ahead <= self.capacity else 0
            if most:
                return it._replace(most=most, read=(), digits=0, stage=("read", 0)), None
            return (it._replace(stage=("over",)), "closed") if again else (it._replace(stage=("look",)), None)
        if kind == "look":
            if not answer:
                return it._replace(used=it.used + 1, stage=("between",)), "empty"
            return (it._replace(stage=("over",)), "closed") if self.wrong == "no-second-scan" else (it._replace(stage=("again", 0)), None)
        if kind == "read":
            digits = it.digits | answer << at[0]
            if at[0] + 1 < self.width:
                return it._replace(digits=digits, stage=("read", at[0] + 1)), None
            read = it.read + (digits,)
            stage = ("read", 0) if len(read) < it.most else ("count", (it.count + it.most) % self.modulus)
            return it._replace(read=read, digits=0, stage=stage), None
        row = tuple(answer if at == bit[1] else old for at, old in enumerate(it.row))
        if self.row_write(row, at[0]) is not None:
            return it._replace(row=row), None
        return it._replace(row=row, count=at[0], used=it.used + len(it.read), taken=it.taken + it.read, read=(), stage=("between",)), it.read

    # ---- an event -------------------------------------------------------------------------------------------------------------

    def asks(self, state, side):
        """Whether the next event of a side ends a read that the other side's write overlaps."""
        own = state.p_open if side == "P" else state.c_open
        return own is not None and own[1] is None and own[2]

    def event(self, state, side, answer=None):
        """The state after the next event of a side, or None if the side is done; and whether the event ended a call."""
        own, other = (state.p_open, state.c_open) if side == "P" else (state.c_open, state.p_open)
        it, nexts = (state.p, self.next_put) if side == "P" else (state.c, self.next_take)
        if own is None:
            access = nexts(it)
            if access is None:
                return None, False
            bit, value = access
            overlaps = other is not None and other[0] == bit and (value is None) != (other[1] is None)
            own = (bit, value, overlaps)
            if overlaps and other[1] is None:
                other = (other[0], None, True)
            state = self.opened(state, side, own, other)
            if side == "C" and it.stage == ("between",):
                state = state._replace(c=it._replace(seen=state.p.stored))
            return state, False
        bit, value, overlapped = own
        bits = state.bits
        if value is not None:
            bits = bits | {bit} if value else bits - {bit}
        got = value if value is not None else answer if overlapped else int(bit in bits)
        state = self.opened(state, side, None, other)._replace(bits=bits)
        if side == "P":
            put, has_ended = self.end_put(it, bit, got)
            under_way = self.wanted(state.c) if state.c.stage != ("between",) or state.c_open else 0
            is_over_full = put.stored > it.stored and put.stored - len(state.c.taken) - under_way > self.capacity
            return state._replace(p=put, fault=OTHER if is_over_full else None), has_ended
        take, reply = self.end_take(it, bit, got)
        return state._replace(c=take, fault=self.fault(state, reply)), reply is not None

    @staticmethod
    def opened(state, side, own, other):
        return state._replace(p_open=own, c_open=other) if side == "P" else state._replace(p_open=other, c_open=own)

    def fault(self, state, reply):
        """What is wrong with the reply of a take, or None; items are distinguished by their numbers."""
        taken, put = state.c.taken, state.p
        if reply is None:
            return None
        if reply == "empty":
            return EMPTY if state.c.seen > len(taken) else None
        if reply == "closed":
            return CLOSED if put.stored > len(taken) else None
        offered = put.stored + (self.batch if put.stage != ("between",) else 0)
        for item in reply:
            if item in taken:
                return TWICE
            if item not in self.items[len(taken) : offered]:
                return NEVER
            if item != self.items[len(taken)]:
                return OTHER
            taken += (item,)
        return None


def moves(ring, state):
    """Each key that can be pressed at a state, with the state after it."""
    for side in "PC":
        if ring.asks(state, side):
            for answer in (0, 1):
                yield f"{side}{answer}", ring.event(state, side, answer)[0]
            continue
        after, has_ended = ring.event(state, side)
        if after is None:
            continue
        yield KEYS[side, False], after
        while not has_ended and not ring.asks(after, side) and after.fault is None:
            further, has_ended = ring.event(after, side)
            if further is None:
                break
            after = further
        yield KEYS[side, True], after


def reached(ring):
    """For each goal that a play of the ring reaches, the fewest keys. (A key that answers has its side before it.)"""
    start = ring.start()
    before, found, level = {start: None}, {}, [start]
    while level:
        following = []
        for state in level:
            for key, after in moves(ring, state):
                if after in before:
                    continue
                before[after] = (state, key)
                if after.fault is None:
                    following.append(after)
                elif after.fault not in found:
                    found[after.fault] = keys_to(before, after)
        level = following
    return found, len(before)


def keys_to(before, state):
    keys = []
    while before[state] is not None:
        state, key = before[state]
        keys.append(key)
    return keys[::-1]


def main():
    script = {"capacity": 1, "modulus": 3, "width": 2, "items": [1, 2, 3], "takes": 3, "close": True}
    for wrong in RINGS:
        found, states = reached(Ring(wrong, **script))
        print(f"{wrong or 'all rules kept'}: {states} states")
        for goal, keys in found.items():
            print(f"  {goal}: {len(keys)} keys: {' '.join(keys)}")


if __name__ == "__main__":
    sys.exit(main())
