// ring_audit.go: judges what a RingCalls has in the process that recorded it, as in a unit test. Linux on x86-64 and ARM64; by cgo.
// Copy it beside ring_calls.go, into the same package, and name that in the next line.
package main

//	if err := Lawful("queue 8", rec); err != nil {                       once both goroutines have ended
//		t.Fatal(err)
//	}
//
// The verdict is that of the proved audit, `lamport_ring audit --calls`, in the same words, with no text and no other process:
// the error is `fault: line 5: empty, but item 12 was inside since line 3`, and those lines. If RING_AUDIT_KEEP names a
// file in the environment, the recording is written there, for record/shrink and for the page. Judge counts, too, what a lawful
// one has.
//
// It is linked with libring_audit.a, of dist/ (x86-64) or dist/aarch64-linux/ (ARM64), which lies beside this file, the one for ARM64 in a
// folder arm64 there, or where the environment says: CGO_LDFLAGS=-L/path/of/dist go test. As a test file cannot use cgo, a package whose
// own files should not need the library keeps this file and ring_calls.go in a package that its tests alone import.
//
// The library is proved. This file is not; record/test tests it. It ensures what the library requires and does not check:
//   - The state is all 0, but for its two lists, before ring_audit_begin; then the library alone changes it, and no copy is made.
//   - Each list has as many slots as stated, and nothing else touches them: they are memory of C, from calloc up to free. No
//     pointer is null, even if it points to no numbers. What Go lends has no pointers in it, and the library keeps none of it.
//   - One call at a time on one state: each has a state of its own.

/*
#cgo arm64 LDFLAGS: -L${SRCDIR}/arm64
#cgo LDFLAGS: -L${SRCDIR} -l:libring_audit.a
#include <stdbool.h>
#include <stddef.h>
#include <stdint.h>
#include <stdlib.h>

typedef struct { uint64_t item, offered_at, stored_at; } ring_audit_offered;
typedef struct { uint64_t item, taken_at; } ring_audit_taken;
typedef struct { uint32_t word, count; } ring_audit_line;
typedef struct {
    size_t full, most, offered, before_put, wanted, before_take, begun_items;
    uint32_t put, begun;
    bool bounded, again, take, ended, shut;
} ring_audit_calls;
typedef struct {
    size_t calls, stored, taken, full, empty, nothing;
    bool told;
    size_t surely_inside, perhaps_inside, overlapped, under_way;
} ring_audit_counts;
typedef struct { uint64_t line, against, words; uint32_t verdict; } ring_audit_found;
typedef struct {
    ring_audit_offered *offered; size_t offered_room;
    ring_audit_taken *taken; size_t taken_room;
    size_t offered_first, offered_used, taken_first, taken_used, limit;
    ring_audit_taken last_taken;
    uint64_t line, ended_at, told_at, put_at, stored_at;
    ring_audit_calls calls;
    ring_audit_counts report;
    bool has_ended, has_told, put_overlaps, take_overlaps;
} ring_audit_state;

_Static_assert(sizeof(bool) == 1 && sizeof(size_t) == 8, "as on x86-64 and ARM64");
_Static_assert(sizeof(ring_audit_offered) == 24 && sizeof(ring_audit_taken) == 16, "as in the library");
_Static_assert(sizeof(ring_audit_line) == 8 && sizeof(ring_audit_calls) == 72, "as in the library");
_Static_assert(sizeof(ring_audit_counts) == 88 && sizeof(ring_audit_found) == 32, "as in the library");
_Static_assert(sizeof(ring_audit_state) == 296, "as in the library");

bool ring_audit_begin(ring_audit_state *, const uint64_t *numbers, size_t count);
size_t ring_audit_hear(ring_audit_state *, const ring_audit_line *lines, size_t lines_count,
                       const uint64_t *numbers, size_t numbers_count, uint8_t *words, size_t words_room, ring_audit_found *found);
bool ring_audit_report(ring_audit_state *, ring_audit_counts *report);
void ring_audit_layout(uint64_t *sizes, size_t count);

// A state with its lists, all 0, in one piece, which free frees; NULL if out of memory.
static ring_audit_state *ring_audit_new(size_t offered, size_t taken) {
    ring_audit_state *s = calloc(1, sizeof *s + offered * sizeof *s->offered + taken * sizeof *s->taken);
    if (s) {
        s->offered = (ring_audit_offered *)(s + 1);
        s->offered_room = offered;
        s->taken = (ring_audit_taken *)(s->offered + offered);
        s->taken_room = taken;
    }
    return s;
}
*/
import "C"

import (
	"bufio"
	"fmt"
	"math"
	"os"
	"strconv"
	"strings"
	"sync/atomic"
	"unsafe"
)

const (
	// An item that comes again is reported as such if it is among this many taken last.
	ringTaken = 65536
	// The number of lines that are shown before the one at fault, and after it.
	ringBefore, ringBehind = 6, 2
	// Lines are passed in groups of at most this many lines and numbers; a line with more numbers is passed alone.
	ringLines, ringNumbers = 256, 1024
	// This many calls without an overlap are reported.
	ringAlone = 1000
	// Kinds of lines, by their places in ringWords.
	ringPut, ringTake, ringItem, ringSome = 0, 2, 9, 10
	// Verdicts; the last two are this file's.
	ringBadLine, ringNoRoom, ringNoMemory, ringOtherLibrary = 3, 4, 7, 8
)

// RingFault is what is found about calls that are not lawful, or that cannot be judged.
type RingFault struct {
	Words         string // of the first line that is not lawful
	Line, Against uint64 // that line, and the one that contradicts it; 0 if there is none
	Lines         string // those around it and the one that contradicts it, as they are in the recording
}

func (f *RingFault) Error() string { return strings.TrimRight(f.Words+"\n"+f.Lines, "\n") }

// RingReport is what audit --calls counts in lawful calls. Inside: the most surely inside at some moment, and the most perhaps inside; Cut:
// calls are missing after the last line.
type RingReport struct {
	Calls, Stored, Taken, Full, Empty, Nothing uint64
	Told                                       bool
	Inside                                     [2]uint64
	Overlapped, Open                           uint64
	Cut                                        bool
}

// String is what audit --calls prints.
func (r RingReport) String() string {
	told, cut := "no", ""
	if r.Told {
		told = "yes"
	}
	if r.Cut {
		cut = "cut yes\n"
	}
	calls := fmt.Sprintf("calls %d\nstored %d\ntaken %d\n", r.Calls, r.Stored, r.Taken)
	none := fmt.Sprintf("full %d\nempty %d\nnothing %d\ntold %s\n", r.Full, r.Empty, r.Nothing, told)
	inside := fmt.Sprintf("inside %d %d\noverlapped %d\nopen %d\n", r.Inside[0], r.Inside[1], r.Overlapped, r.Open)
	return "lawful\n" + calls + none + inside + cut
}

// Lawful judges what r has, once both goroutines have ended; head is the first line of the recording: "queue 8", "queue 1 512" or
// "queue". The error, nil if it is lawful, is a *RingFault; if it is nil, and no call was recorded, the history is cut, or no calls
// overlap, this is printed to standard error.
func Lawful(head string, r *RingCalls) error {
	_, err := Judge(head, r)
	return err
}

// Judge is Lawful, and returns what is counted in a lawful recording.
func Judge(head string, r *RingCalls) (RingReport, error) {
	report, fault := r.judge(head)
	if fault == nil {
		r.tell()
		report.count()
		return report, nil
	}
	if fault.Line > 0 {
		fault.Lines = r.linesOf(fault, head)
	}
	if name := os.Getenv("RING_AUDIT_KEEP"); name != "" {
		if err := r.keep(head, name); err != nil {
			fmt.Fprintln(os.Stderr, "the recording cannot be written:", err)
		}
	}
	return RingReport{}, fault
}

// How many calls there were in the lawful recordings of all rounds, and how many of them overlapped.
var ringCounted, ringOverlapped uint64

// Counts the calls. If the first ringAlone of them came one after the other, none overlapping one of the other side, standard error
// says so, once: a single round may do so by chance.
func (r RingReport) count() {
	if atomic.AddUint64(&ringOverlapped, r.Overlapped) > 0 {
		return
	}
	now := atomic.AddUint64(&ringCounted, r.Calls)
	if now-r.Calls < ringAlone && now >= ringAlone {
		fmt.Fprintf(os.Stderr, "ring_audit: of %d calls none overlapped one of the other side, so they show what one thread shows: let both threads wait "+
			"for each other first, make more calls, leave two processors free\n", now)
	}
}

// Takes what both logs have, in the order in which Write writes it.
func (r *RingCalls) judge(head string) (RingReport, *RingFault) {
	var sizes [6]C.uint64_t
	C.ring_audit_layout(&sizes[0], C.size_t(len(sizes)))
	if sizes != [6]C.uint64_t{C.sizeof_ring_audit_state, C.sizeof_ring_audit_offered, C.sizeof_ring_audit_taken,
		C.sizeof_ring_audit_line, C.sizeof_ring_audit_counts, C.sizeof_ring_audit_found} {
		return RingReport{}, ringFault(C.ring_audit_found{verdict: ringOtherLibrary}, nil)
	}
	capacity, isHead := ringCapacity(head)
	offered, taken := r.room(capacity)
	state := C.ring_audit_new(C.size_t(offered), C.size_t(taken))
	if state == nil {
		return RingReport{}, ringFault(C.ring_audit_found{verdict: ringNoMemory}, nil)
	}
	defer C.free(unsafe.Pointer(state))
	if !isHead || !bool(C.ring_audit_begin(state, ringAt(capacity), C.size_t(len(capacity)))) {
		return RingReport{}, ringFault(C.ring_audit_found{line: 1, verdict: ringBadLine}, nil)
	}
	var fault *RingFault
	hear := func(lines []C.ring_audit_line, numbers []uint64) bool {
		var found C.ring_audit_found
		var cause [256]byte
		C.ring_audit_hear(state, &lines[:1][0], C.size_t(len(lines)), ringAt(numbers), C.size_t(len(numbers)),
			(*C.uint8_t)(unsafe.Pointer(&cause[0])), C.size_t(len(cause)), &found)
		if found.verdict == ringNoRoom {
			found.line = state.line + 1
		}
		if found.verdict != 0 {
			fault = ringFault(found, cause[:found.words])
		}
		return fault == nil
	}
	lines, numbers := make([]C.ring_audit_line, 0, ringLines), make([]uint64, 0, ringNumbers)
	events := r.events()
	for event, more := events.next(); more; event, more = events.next() {
		count := len(event.numbers)
		if len(lines) == ringLines || len(numbers)+count > ringNumbers {
			if !hear(lines, numbers) {
				return RingReport{}, fault
			}
			lines, numbers = lines[:0], numbers[:0]
		}
		if count > math.MaxUint32 {
			return RingReport{}, ringFault(C.ring_audit_found{line: state.line + 1, verdict: ringNoRoom}, nil)
		}
		line := C.ring_audit_line{word: C.uint32_t(event.kind), count: C.uint32_t(count)}
		if count > ringNumbers {
			if !hear([]C.ring_audit_line{line}, event.numbers) {
				return RingReport{}, fault
			}
			continue
		}
		lines, numbers = append(lines, line), append(numbers, event.numbers...)
	}
	if !hear(lines, numbers) {
		return RingReport{}, fault
	}
	var c C.ring_audit_counts
	C.ring_audit_report(state, &c)
	return RingReport{
		Calls: uint64(c.calls), Stored: uint64(c.stored), Taken: uint64(c.taken),
		Full: uint64(c.full), Empty: uint64(c.empty), Nothing: uint64(c.nothing), Told: bool(c.told),
		Inside:     [2]uint64{uint64(c.surely_inside), uint64(c.perhaps_inside)},
		Overlapped: uint64(c.overlapped), Open: uint64(c.under_way), Cut: events.cut != math.MaxUint64,
	}, nil
}

// The address of these numbers; never nil.
func ringAt(numbers []uint64) *C.uint64_t {
	if len(numbers) == 0 {
		numbers = []uint64{0}
	}
	return (*C.uint64_t)(unsafe.Pointer(&numbers[0]))
}

// The words of a cause come from the library.
func ringFault(found C.ring_audit_found, cause []byte) *RingFault {
	words, line := "", uint64(found.line)
	switch found.verdict {
	case 1:
		words = fmt.Sprintf("fault: line %d: out of turn", line)
	case 2:
		words = fmt.Sprintf("fault: line %d: %s", line, cause)
	case ringBadLine:
		words = fmt.Sprintf("refused: calls line %d is not a line of the format", line)
	case ringNoRoom:
		words = fmt.Sprintf("refused: no room for the items of line %d", line)
	case 5:
		words = "refused: calls have too many lines"
	case 6:
		words = "refused: the state is none that libring_audit left"
	case ringNoMemory:
		words = "refused: out of memory"
	default:
		words = "refused: libring_audit is of another version than ring_audit.go"
	}
	return &RingFault{Words: words, Line: line, Against: uint64(found.against)}
}

// The numbers of a first line, and whether it is one.
func ringCapacity(head string) ([]uint64, bool) {
	words := strings.Split(head, " ")
	numbers := []uint64{}
	for _, word := range words[1:] {
		number, err := strconv.ParseUint(word, 10, 64)
		if err != nil || strconv.FormatUint(number, 10) != word {
			return nil, false
		}
		numbers = append(numbers, number)
	}
	return numbers, words[0] == "queue"
}

// Room for the most items inside, with those that a put offers, and for those taken last.
func (r *RingCalls) room(capacity []uint64) (offered, taken uint64) {
	put, take := uint64(0), uint64(1)
	events := r.events()
	for event, more := events.next(); more; event, more = events.next() {
		count := uint64(len(event.numbers))
		switch event.kind {
		case ringPut:
			offered += count
			if count > put {
				put = count
			}
		case ringTake:
			if count > 0 && event.numbers[0] > take {
				take = event.numbers[0]
			}
		case ringItem, ringSome:
			taken += count
		}
	}
	// a queue with a bound has no more inside than that, plus what a take under way asks for
	if len(capacity) > 0 {
		most := capacity[len(capacity)-1]
		if most < offered && take < offered && most+take+put < offered {
			offered = most + take + put
		}
	}
	return offered, min64(taken, ringTaken)
}

// The lines around the one at fault, and the one that contradicts it, as they are in the recording.
func (r *RingCalls) linesOf(fault *RingFault, head string) string {
	var shown strings.Builder
	out, events := bufio.NewWriter(&shown), r.events()
	event, more, last := ringEvent{}, true, uint64(0)
	for line := uint64(1); more && line <= fault.Line+ringBehind; line++ {
		mark := ' '
		if line == fault.Line || line == fault.Against {
			mark = '>'
		}
		if mark == '>' || line+ringBefore >= fault.Line {
			if line > last+1 {
				out.WriteString("        ..\n")
			}
			last = line
			fmt.Fprintf(out, "%c %6d  ", mark, line)
			if line == 1 {
				fmt.Fprintln(out, events.firstLine(head))
			} else {
				event.write(out)
			}
		}
		event, more = events.next()
	}
	out.Flush()
	return shown.String()
}

// Writes the recording to a file; one that was there is lost.
func (r *RingCalls) keep(head, name string) error {
	file, err := os.Create(name)
	if err != nil {
		return err
	}
	if err := r.Write(head, file); err != nil {
		file.Close()
		return err
	}
	return file.Close()
}
