// ring_calls.go: records the calls of a queue with one producer and one consumer, for `lamport_ring audit --calls`.
// Copy it into your package and name that in the next line.
package main

//	rec := NewRingCalls(1 << 20)                     room for this many words of 8 bytes on each side: a put with its end takes 5
//	producer:  rec.Put(v);    if put(v) { rec.Stored() } else { rec.Full() }
//	           rec.Close();   close(q);  rec.Closed()
//	consumer:  rec.Take();    v, ok := take();  if ok { rec.Item(v) } else { rec.Empty() }       (rec.Told(): empty and closed)
//	when both goroutines have ended:  rec.Write("queue 8", file)                  rec.Restart() for a next round
//
// Why there are no false alarms: each start takes the next ticket of one counter before the call, each end after it, so an interval
// can only get wider. Atomic operations of Go are sequentially consistent: if the ticket of an end is smaller than that of a start, the one
// call happens before the other, and a correct queue has to respect that. All other calls overlap in the recording. While recording nothing
// is allocated and nothing locked; if the log of a side is full the history is cut there, for both sides: its first line begins
// with `cut`, and Write prints to standard error whose log was full, or that no call was recorded.

import (
	"bufio"
	"fmt"
	"io"
	"math"
	"os"
	"sync/atomic"
)

// How a line of each kind begins; the first three are begins.
var ringWords = [...]string{"P put", "P close", "C take", "P stored", "P some", "P full", "P short", "P nothing", "P closed",
	"C item", "C some", "C empty", "C short", "C nothing", "C closed"}

// For each event: its kind and how many numbers it has, its ticket, the numbers.
type ringLog struct {
	words []uint64
	used  int
	cut   uint64
	_     [12]uint64
}

// RingCalls records the calls of one producer and one consumer.
type RingCalls struct {
	p, c   ringLog
	ticket uint64
}

// NewRingCalls has room for this many words on each side.
func NewRingCalls(words int) *RingCalls {
	log := func() ringLog {
		w := make([]uint64, words)
		for i := range w {
			w[i] = 1 // the pages are there before the recording begins
		}
		return ringLog{words: w, cut: math.MaxUint64}
	}
	return &RingCalls{p: log(), c: log()}
}

// Restart forgets what was recorded, between two rounds of a test: while no goroutine records.
func (r *RingCalls) Restart() {
	r.p.used, r.p.cut, r.c.used, r.c.cut, r.ticket = 0, math.MaxUint64, 0, math.MaxUint64, 0
}

func (r *RingCalls) event(l *ringLog, kind uint64, numbers ...uint64) {
	if l.cut != math.MaxUint64 {
		return
	}
	ticket := atomic.AddUint64(&r.ticket, 1)
	end := l.used + 2 + len(numbers)
	if end > len(l.words) {
		l.cut = ticket
		return
	}
	l.words[l.used] = kind | uint64(len(numbers))<<8
	l.words[l.used+1] = ticket
	copy(l.words[l.used+2:end], numbers)
	l.used = end
}

// The producer's: each before the call, or after it.
func (r *RingCalls) Put(items ...uint64) { r.event(&r.p, 0, items...) }
func (r *RingCalls) Close()              { r.event(&r.p, 1) }
func (r *RingCalls) Stored()             { r.event(&r.p, 3) }
func (r *RingCalls) Full()               { r.event(&r.p, 5) }

// StoredOf: the first of the items offered were stored, as many as there was room for.
func (r *RingCalls) StoredOf(stored, offered uint64) {
	if stored == 0 {
		r.Full()
	} else if stored == offered {
		r.Stored()
	} else {
		r.event(&r.p, 3, stored)
	}
}

// Some: the first `stored` items were stored, with no reason given why no more.
func (r *RingCalls) Some(stored uint64) {
	if stored == 0 {
		r.PutNothing()
	} else {
		r.event(&r.p, 4, stored)
	}
}

// PutShort: an all-or-nothing put of two or more items; none was stored, as there was not room for all.
func (r *RingCalls) PutShort() { r.event(&r.p, 6) }

// PutNothing: none was stored, with no reason given.
func (r *RingCalls) PutNothing() { r.event(&r.p, 7) }

// Closed: a close ends, or a put that found the queue closed.
func (r *RingCalls) Closed() { r.event(&r.p, 8) }

// The consumer's.
func (r *RingCalls) Take() { r.event(&r.c, 2) }

// TakeAll: at most this many items, at least 1.
func (r *RingCalls) TakeAll(most uint64) {
	if most > 1 {
		r.event(&r.c, 2, most)
	} else {
		r.Take()
	}
}
func (r *RingCalls) Item(items ...uint64) { r.event(&r.c, 9, items...) }
func (r *RingCalls) Empty()               { r.event(&r.c, 11) }

// SomeItems: these items, with no reason given why no more.
func (r *RingCalls) SomeItems(items ...uint64) {
	if len(items) == 0 {
		r.TakeNothing()
	} else {
		r.event(&r.c, 10, items...)
	}
}

// TakeShort: an all-or-nothing take of two or more items; there were not enough.
func (r *RingCalls) TakeShort()   { r.event(&r.c, 12) }
func (r *RingCalls) TakeNothing() { r.event(&r.c, 13) }

// Told: empty, and closed.
func (r *RingCalls) Told() { r.event(&r.c, 14) }

// An event: its kind, by its place in ringWords, and its numbers.
type ringEvent struct {
	kind    uint64
	numbers []uint64
}

// The events of both sides that are to come, in the order of their tickets, up to the one at which the history is cut.
type ringEvents struct {
	p, c []uint64
	cut  uint64
}

func (r *RingCalls) events() *ringEvents {
	return &ringEvents{r.p.words[:r.p.used], r.c.words[:r.c.used], min64(r.p.cut, r.c.cut)}
}

// The next event; false after the last one.
func (e *ringEvents) next() (ringEvent, bool) {
	ticket := func(words []uint64) uint64 {
		if len(words) > 0 && words[1] < e.cut {
			return words[1]
		}
		return math.MaxUint64
	}
	log, p, c := &e.p, ticket(e.p), ticket(e.c)
	if min64(p, c) == math.MaxUint64 {
		return ringEvent{}, false
	}
	if c < p {
		log = &e.c
	}
	words := *log
	end := 2 + int(words[0]>>8)
	*log = words[end:]
	return ringEvent{words[0] & 255, words[2:end]}, true
}

// The first line of the recording.
func (e *ringEvents) firstLine(head string) string {
	if e.cut != math.MaxUint64 {
		return "cut " + head
	}
	return head
}

func (e ringEvent) write(out *bufio.Writer) {
	out.WriteString(ringWords[e.kind])
	for _, v := range e.numbers {
		fmt.Fprint(out, " ", v)
	}
	out.WriteByte('\n')
}

// Prints to standard error if the history is cut, or has no call.
func (r *RingCalls) tell() {
	if r.events().cut != math.MaxUint64 {
		side, log := "producer", &r.p
		if r.c.cut < r.p.cut {
			side, log = "consumer", &r.c
		}
		fmt.Fprintf(os.Stderr, "ring_calls: the %s's log was full after %d words: the recording is a prefix of what happened\n", side, len(log.words))
	} else if r.p.used+r.c.used == 0 {
		fmt.Fprintln(os.Stderr, "ring_calls: no call was recorded: is it this RingCalls that was called, and have both goroutines ended?")
	}
}

// Write writes the recording; head is its first line: "queue 8", "queue 1 512" or "queue". If the history is cut, or has no
// call, prints this to standard error.
func (r *RingCalls) Write(head string, to io.Writer) error {
	out, events := bufio.NewWriter(to), r.events()
	r.tell()
	fmt.Fprintln(out, events.firstLine(head))
	for event, more := events.next(); more; event, more = events.next() {
		event.write(out)
	}
	return out.Flush()
}

func min64(a, b uint64) uint64 {
	if a < b {
		return a
	}
	return b
}
