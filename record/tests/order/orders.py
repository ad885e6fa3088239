"""The requirements on a run whose calls are ordered only by happens-before, computed from the definitions in words by a search of orders.

A case has a first line, as `queue 2`, and two rows of calls, the producer's and the consumer's. The operations are those of docs/MODEL.md:
a put of three items is three operations, one after the other, and what a call says about why it passed no more is one more operation,
before them. An order of all operations is one in which each side's are in the order of its row, all those of a call come before all those of a
call of the other side whose begin its end happens before, and each is legal at the queue that those before it left. A call under way at
the end may have stored or taken any number of its first items; a close under way may have taken effect.

- strict: there is one order of all operations.
- fresh: for each side there is one order of what changes the queue, on both sides, and of what this side finds (full, empty, closed).
Two other formulations of `fresh` are computed too: one reply at a time, and call by call in plain words, without any order."""
from collections import namedtuple

PRODUCER, CONSUMER = 0, 1
CHANGES = ("enqueue", "dequeue", "close")

# A call: its start ("put", "close", "take"), the items offered or the number asked for; its end ("" if it is under way) with its numbers; how
# many calls of the other side have ends that happen before its start; and how many of the producer's calls have starts that happen before
# its end. Its lines, of the start and of the end.
Call = namedtuple("Call", "begin offered wanted end numbers after met lines")
# A case: the numbers of the first line, and the rows of both sides; the line that was out of turn, 0 if none was.
Case = namedtuple("Case", "bounds rows turn")


def stored_by(put):
    """How many items a put that has ended stored."""
    if put.end in ("stored", "some"):
        return put.numbers[0] if put.numbers else len(put.offered)
    return 0


def taken_by(take):
    return len(take.numbers) if take.end in ("item", "some") else 0


def finding_of(call):
    """What an ended call reports that it found: an operation that changes nothing; None if it reports nothing."""
    if call.begin == "put":
        count, stored = len(call.offered), stored_by(call)
        found = {"full": ("no room", 1), "short": ("no room", count), "closed": ("shut",)}
        return ("no room", stored + 1) if call.end == "stored" and stored < count else found.get(call.end)
    if call.begin == "take":
        taken = taken_by(call)
        found = {"empty": ("fewer", 1), "short": ("fewer", call.wanted), "closed": ("closed",)}
        return ("fewer", taken + 1) if call.end == "item" and taken < call.wanted else found.get(call.end)
    return None


def operations_of(call, most):
    """The ways in which a call may have taken effect, each a list of operations; one way if it has ended. It can take no more than the most."""
    finding = [finding_of(call)] if call.end and finding_of(call) else []
    if call.begin == "close":
        return [[("close",)]] if call.end else [[], [("close",)]]
    if call.begin == "put":
        all_of = [("enqueue", item) for item in call.offered]
        return [finding + all_of[: stored_by(call)]] if call.end else [all_of[:count] for count in range(len(all_of) + 1)]
    if call.end:
        return [finding + [("dequeue", item) for item in call.numbers[: taken_by(call)]]]
    return [[("dequeue", None)] * count for count in range(min(call.wanted, most) + 1)]


def after(bounds, queue, operation):
    """The queue that an operation leaves: its items, the oldest first, and whether it is closed. None if it is not legal."""
    items, closed = queue
    name, *what = operation
    full, most = bounds
    legal = {
        "enqueue": lambda: len(items) < most and not closed,
        "no room": lambda: full < len(items) + what[0] and not closed,
        "shut": lambda: closed,
        "close": lambda: True,
        "dequeue": lambda: items and what[0] in (None, items[0]),
        "fewer": lambda: len(items) < what[0] and not (closed and not items),
        "closed": lambda: closed and not items,
    }[name]()
    if not legal:
        return None
    if name == "enqueue":
        return items + (what[0],), closed
    return items[1:] if name == "dequeue" else items, closed or name == "close"


def rows_of_operations(row, most, is_wanted):
    """The possible rows of operations of a row of calls, only of the wanted kinds, each operation with its call's number."""
    ways = [[]]
    for number, call in enumerate(row):
        ways = [way + [(it, number) for it in more if it[0] in CHANGES or is_wanted(call)] for way in ways for more in operations_of(call, most)]
    return ways


def have_order(case, rows):
    """Whether these two rows of operations have an order: all are searched. The queue left by a prefix depends only on how many
    operations of each row it has, and not on their order, so each pair of such numbers is visited once."""
    calls = case.rows
    # for each operation: how many of the other row must come before it
    needs = [[sum(of < calls[s][number].after for _, of in rows[1 - s]) for _, number in rows[s]] for s in (0, 1)]
    seen, waiting = {(0, 0)}, [((0, 0), ((), False))]
    while waiting:
        at, queue = waiting.pop()
        if at == (len(rows[0]), len(rows[1])):
            return True
        for s in (0, 1):
            if at[s] == len(rows[s]) or needs[s][at[s]] > at[1 - s]:
                continue
            left = after(case.bounds, queue, rows[s][at[s]][0])
            then = (at[0] + 1, at[1]) if s == 0 else (at[0], at[1] + 1)
            if left is not None and then not in seen:
                seen.add(then)
                waiting.append((then, left))
    return False


def has_order(case, is_wanted):
    """Whether there is an order of what changes the queue and of the findings of these calls."""
    offered = sum(len(put.offered) for put in case.rows[PRODUCER])
    ways = [rows_of_operations(row, offered, is_wanted) for row in case.rows]
    return any(have_order(case, (p, c)) for p in ways[0] for c in ways[1])


def is_strict(case):
    return has_order(case, lambda call: True)


def is_fresh(case):
    return all(has_order(case, lambda call, row=row: any(call is it for it in row)) for row in case.rows)


def is_fresh_one_by_one(case):
    """One reply at a time; but once a take has returned closed, no later one returns empty or short, or an item."""
    told = False
    for call in case.rows[CONSUMER]:
        if told and (taken_by(call) or call.end in ("empty", "short")):
            return False
        told = told or call.end == "closed"
    answers = [call for row in case.rows for call in row if call.end and finding_of(call)]
    return has_order(case, lambda call: False) and all(has_order(case, lambda call, it=it: call is it) for it in answers)


# ---- call by call, in plain words ----


def passer_of(row, number, count_of, most_of):
    """The call of a row that passed the item of this number, or the last one, under way, that may have; None if there is none."""
    before = 0
    for call in row:
        count = count_of(call) if call.end else most_of(call)
        if before < number <= before + count:
            return call
        before += count
    return None


def lines_at_fault(case):
    """The lines that end a call whose reply is wrong by itself."""
    puts, takes = case.rows
    full, most = case.bounds
    closes = [at for at, call in enumerate(puts) if call.begin == "close"]
    all_stored = sum(map(stored_by, puts))
    offered = [
        (item, put)
        for at, put in enumerate(puts)
        if put.begin == "put"
        for item in put.offered[: stored_by(put) if put.end else None]
        if put.end or not closes or at < closes[0]
    ]
    found, told, passed = set(), False, 0
    number_of = {id(call): at for row in case.rows for at, call in enumerate(row)}

    def is_before(a, b):
        return bool(a.end) and number_of[id(a)] < b.after

    for take in takes:
        if not take.end:
            break
        for at, item in enumerate(take.numbers[: taken_by(take)], passed):
            if at >= len(offered) or offered[at][0] != item or is_before(take, offered[at][1]):
                found.add(take.lines[1])
        finding = finding_of(take)
        if told and (taken_by(take) or finding and finding[0] == "fewer"):
            found.add(take.lines[1])
        sure = sum(map(stored_by, puts[: take.after]))
        if finding and finding[0] == "fewer" and (sure >= passed + finding[1] or any(at < take.after for at in closes) and all_stored == passed):
            found.add(take.lines[1])
        if finding == ("closed",):
            told = True
            if not closes or is_before(take, puts[closes[0]]) or all_stored != passed:
                found.add(take.lines[1])
        passed += taken_by(take)
    passed = 0
    for at, put in enumerate(puts):
        if not put.end or put.begin == "close":
            continue
        finding, is_late = finding_of(put), any(close < at for close in closes)
        if is_late and (stored_by(put) or finding and finding[0] == "no room") or not is_late and finding == ("shut",):
            found.add(put.lines[1])
        for number in range(passed + 1 - most, passed + 1 - most + stored_by(put)) if most < float("inf") else ():
            take = passer_of(takes, number, taken_by, lambda call: call.wanted)
            if number > 0 and (not take or is_before(put, take)):
                found.add(put.lines[1])
        if finding and finding[0] == "no room" and passed - sum(map(taken_by, takes[: put.after])) + finding[1] <= full:
            found.add(put.lines[1])
        passed += stored_by(put)
    return found


def are_handed(case):
    """Whether, for each item that was taken, the start of its put happens before the end of its take."""
    puts = [at for at, put in enumerate(case.rows[PRODUCER]) for _ in range(stored_by(put) if put.end else len(put.offered))]
    takes = [take for take in case.rows[CONSUMER] for _ in range(taken_by(take))]
    return all(at < take.met for at, take in zip(puts, takes))
