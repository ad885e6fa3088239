"""ring_audit.py: judges the calls of a queue with one producer and one consumer in the process that makes them, as in a unit test.

    assert ring_audit.lawful(rec, 'queue 8')                         rec: a Recorder of ring_calls.py, when both threads were joined

The verdict is that of the proved audit, `lamport_ring audit --calls`, in the same words; pytest shows them, as
`fault: line 5: empty, but item 12 was inside since line 3`, and stderr has the lines meant. Where RING_AUDIT_KEEP names a file in the
environment, the recording is written there. Without a recorder, line by line, with room for 20 items, those inside and those that a put
offers:

    audit = ring_audit.Audit('queue 8', 20)
    audit.put(7);  audit.stored();  audit.take();  audit.item(7)     true while all is lawful
    audit.fault()                                                    None, or the words of the first fault
    audit.report().full                                              how many puts ended full

It needs ring_calls.py beside it, and the library: that of load(PATH), of RING_AUDIT_LIB in the environment, or libring_audit.so.1 (on macOS
libring_audit.1.dylib, on Windows ring_audit.dll) beside this file, in the folder of ../../../dist for this machine, or where the system has
its libraries. The library is proved, this file is not; threads that share an Audit need a lock."""
import array
import collections
import ctypes
import os
import platform
import re
import sys

import ring_calls

# An item that comes again is reported as such if it is among this many taken last.
TAKEN = 65536
# The number of lines that are shown before the one at fault, and after it.
BEFORE, BEHIND = 6, 2
# If this many calls came one after the other, none overlapping one of the other side, stderr says so.
ALONE = 1000
# The words of each verdict, in order.
WORDS = (
    "lawful",
    "fault: line {line}: out of turn",
    "fault: line {line}: {cause}",
    "refused: calls line {line} is not a line of the format",
    "refused: no room for the items of line {line}",
    "refused: calls have too many lines",
    "refused: the state is none that libring_audit left",
)
NO_ROOM = 4


def _struct(name, *fields):
    return type(name, (ctypes.Structure,), {"_fields_": [(field, kind) for kind, names in fields for field in names.split()]})


_u64, _u32, _size, _bool, _at = ctypes.c_uint64, ctypes.c_uint32, ctypes.c_size_t, ctypes.c_bool, ctypes.c_void_p
_Offered = _struct("_Offered", (_u64, "item offered_at stored_at"))
_Taken = _struct("_Taken", (_u64, "item taken_at"))
_Line = _struct("_Line", (_u32, "word count"))
_Under = _struct(
    "_Under", (_size, "full most offered before_put wanted before_take begun_items"), (_u32, "put begun"), (_bool, "bounded again take ended shut")
)
_Counts = _struct("_Counts", (_size, "calls stored taken full empty nothing"), (_bool, "told"), (_size, "surely_inside perhaps_inside overlapped under_way"))
_Found = _struct("_Found", (_u64, "line against words"), (_u32, "verdict"))
_State = _struct(
    "_State",
    (_at, "offered"),
    (_size, "offered_room"),
    (_at, "taken"),
    (_size, "taken_room"),
    (_size, "offered_first offered_used taken_first taken_used limit"),
    (_Taken, "last_taken"),
    (_u64, "line ended_at told_at put_at stored_at"),
    (_Under, "calls"),
    (_Counts, "report"),
    (_bool, "has_ended has_told put_overlaps take_overlaps"),
)
# What audit --calls counts in a lawful recording; inside: surely at some moment, and at most.
Report = collections.namedtuple("Report", "calls stored taken full empty nothing told inside overlapped open")
_loaded = None
# The place of the library in dist/, for each system and machine.
_SHIPPED = {
    "Linux x86_64": "libring_audit.so.1",
    "Linux aarch64": "aarch64-linux/libring_audit.so.1",
    "Darwin x86_64": "x86_64-macos/libring_audit.1.dylib",
    "Darwin arm64": "aarch64-macos/libring_audit.1.dylib",
    "Windows AMD64": "x86_64-windows/ring_audit.dll",
}
# How many calls there were in the lawful recordings of all rounds, and how many of them overlapped.
_counted = [0, 0]


def load(path=None):
    """The library: at this path, or the one loaded before, or the first one of those listed at the top of this file."""
    global _loaded
    if path or not _loaded:
        here, machine = os.path.dirname(os.path.abspath(__file__)), f"{platform.system()} {platform.machine()}"
        shipped = _SHIPPED.get(machine, "none/libring_audit.so.1")
        name = os.path.basename(shipped)
        path = path or os.environ.get("RING_AUDIT_LIB") or next(filter(os.path.exists, (f"{here}/{name}", f"{here}/../../../dist/{shipped}")), name)
        try:
            library = ctypes.PyDLL(path)
        except OSError as error:
            if machine in _SHIPPED:
                raise
            raise OSError(f"{error} (dist/ has the library for {', '.join(_SHIPPED)}, none for {machine})") from error
        sizes = (_u64 * 6)()
        library.ring_audit_layout.argtypes = [_at, _size]
        library.ring_audit_layout(sizes, 6)
        if list(sizes) != [ctypes.sizeof(kind) for kind in (_State, _Offered, _Taken, _Line, _Counts, _Found)]:
            raise ImportError(f"{path} is of another version than ring_audit.py")
        library.ring_audit_begin.argtypes, library.ring_audit_begin.restype = [_at, _at, _size], _bool
        library.ring_audit_hear.argtypes, library.ring_audit_hear.restype = [_at, _at, _size, _at, _size, _at, _size, _at], _size
        library.ring_audit_report.argtypes, library.ring_audit_report.restype = [_at, _at], _bool
        _loaded = library
    return _loaded


def _slice(numbers):
    """Numbers as the library takes them: their address and how many; never null."""
    numbers.append(0)
    return (_u64 * len(numbers)).from_buffer(numbers), len(numbers) - 1


class Audit(ring_calls.Calls):
    """An audit that takes line by line, named as in the recorder; each returns whether everything was lawful so far. room: how many items are
    inside at most, with those that a put offers. The first fault stays."""

    def __init__(self, head, room, taken=TAKEN):
        self._library, self._room = load(), (room, taken)
        self._offered, self._taken = (_Offered * max(room, 1))(), (_Taken * max(taken, 1))()
        self.restart(head)

    def restart(self, head):
        """Discards everything, and begins again; head is the first line: "queue 8", "queue 1 512" or "queue"."""
        self._state, self.found, self._fault = _State(), _Found(), None
        self._state.offered, self._state.offered_room = ctypes.addressof(self._offered), self._room[0]
        self._state.taken, self._state.taken_room = ctypes.addressof(self._taken), self._room[1]
        good = re.fullmatch(r"queue((?: (?:0|[1-9][0-9]*)){0,2})", head)
        numbers = [int(it) for it in good[1].split()] if good else [2**64]
        if any(it >= 2**64 for it in numbers) or not self._library.ring_audit_begin(ctypes.byref(self._state), *_slice(array.array("Q", numbers))):
            raise ValueError(f"not the first line of a recording: {head!r}")

    def event(self, kind, numbers=()):
        """Takes the next line: its kind, as in ring_calls.h, and its numbers."""
        return self.hear(array.array("Q", (kind | len(numbers) << 32,)), array.array("Q", numbers))

    _p = _c = event

    def hear(self, lines, numbers):
        """Takes the next lines: for each its kind and, from bit 32 on, how many numbers it has; the numbers of all, one after the other. The lists
        are its own from then on."""
        if not self._fault:
            cause, found = ctypes.create_string_buffer(256), _Found()
            self._library.ring_audit_hear(ctypes.byref(self._state), *_slice(lines), *_slice(numbers), cause, 256, ctypes.byref(found))
            if found.verdict == NO_ROOM:
                found.line = self._state.line + 1
            if found.verdict:
                self.found, self._fault = found, WORDS[found.verdict].format(line=found.line, cause=cause.raw[: found.words].decode())
        return not self._fault

    def fault(self):
        """None while all is lawful; else the words of the first line that is not."""
        return self._fault

    def report(self):
        """What audit --calls counts, for the lines so far."""
        counts = _Counts()
        self._library.ring_audit_report(ctypes.byref(self._state), ctypes.byref(counts))
        *numbers, told, surely, perhaps, overlapped, under_way = (getattr(counts, name) for name, _ in _Counts._fields_)
        return Report(*numbers, told, (surely, perhaps), overlapped, under_way)


class Result:
    """The finding for a recording: true if it is lawful. words: `lawful`, or those of the first line that is not. As text it has the
    lines meant, too."""

    def __init__(self, words, lines=""):
        self.words, self.lines = words, lines

    def __bool__(self):
        return self.words == "lawful"

    def __repr__(self):
        return self.words

    def __str__(self):
        return f"{self.words}\n{self.lines}".rstrip("\n")


def _shown(found, lines):
    """The lines around the one at fault, and the one that contradicts it, as they are in the recording."""
    shown, last = [], 0
    for number, line in enumerate(lines, 1):
        if number > found.line + BEHIND:
            break
        told = number in (found.line, found.against)
        if told or number + BEFORE >= found.line:
            shown += ["        ..\n"] * (number > last + 1) + [f"{'>' if told else ' '} {number:6}  {line}\n"]
            last = number
    return "".join(shown)


def _count(report):
    """Counts the calls of a lawful recording. If none of many overlapped, this is printed once: in a single round it may be chance."""
    before = _counted[0]
    _counted[:] = before + report.calls, _counted[1] + report.overlapped
    if _counted[1] == 0 and before < ALONE <= _counted[0]:
        print(
            f"ring_audit: of {_counted[0]} calls none overlapped one of the other side, so they show what one thread shows: let both threads wait "
            "for each other first, make more calls, leave two processors free",
            file=sys.stderr,
        )


def lawful(recorder, head):
    """Whether what a recorder has is lawful, as a Result. If not, stderr has the words and the lines, and the recording is kept. If it
    is, but has no call, is cut, or no calls overlap, this is printed to stderr."""
    lines, numbers = array.array("Q"), array.array("Q")
    for kind, values in recorder.events():
        lines.append(kind | len(values) << 32)
        numbers.extend(values)
    audit = Audit(head, len(numbers), min(TAKEN, len(numbers)))
    if audit.hear(lines, numbers):
        recorder.tell()
        _count(audit.report())
        return Result("lawful")
    result = Result(audit.fault(), _shown(audit.found, recorder.lines(head)) if audit.found.line else "")
    print(result, file=sys.stderr)
    if name := os.environ.get("RING_AUDIT_KEEP"):
        with open(name, "w", encoding="ascii") as file:
            recorder.write(head, file)
    return result
