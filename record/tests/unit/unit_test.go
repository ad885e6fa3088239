// unit_test.go: a unit test of a small ring: it is a queue in each of 10,000 rounds of 100 calls, and with its bug it is not.
package main

import (
	"runtime"
	"strings"
	"sync/atomic"
	"testing"
	"time"
)

const slots, rounds, callsOfASide = 9, 10000, 50

// The items lie from head up to tail; one slot is kept free. The bug: the tail moves before the cell is written.
type ring struct {
	cells      [slots]uint64
	head, tail uint64
	bug        bool
}

func (q *ring) push(item uint64) bool {
	tail := atomic.LoadUint64(&q.tail)
	next := (tail + 1) % slots
	if next == atomic.LoadUint64(&q.head) {
		return false
	}
	if q.bug {
		atomic.StoreUint64(&q.tail, next)
		runtime.Gosched()
	}
	atomic.StoreUint64(&q.cells[tail], item)
	atomic.StoreUint64(&q.tail, next)
	return true
}

func (q *ring) pop() (uint64, bool) {
	head := atomic.LoadUint64(&q.head)
	if head == atomic.LoadUint64(&q.tail) {
		return 0, false
	}
	item := atomic.LoadUint64(&q.cells[head])
	atomic.StoreUint64(&q.head, (head+1)%slots)
	return item, true
}

func produce(rec *RingCalls, q *ring) {
	item := uint64(1)
	for i := 0; i < callsOfASide; i++ {
		rec.Put(item)
		if q.push(item) {
			rec.Stored()
			item++
		} else {
			rec.Full()
			runtime.Gosched()
		}
	}
}

func consume(rec *RingCalls, q *ring) {
	for i := 0; i < callsOfASide; i++ {
		rec.Take()
		if item, ok := q.pop(); ok {
			rec.Item(item)
		} else {
			rec.Empty()
			runtime.Gosched()
		}
	}
}

// Two goroutines call a new ring; what is found about their calls.
func round(rec *RingCalls, bug bool) error {
	q, here, ended := &ring{bug: bug}, int32(0), make(chan bool)
	meet := func() {
		for atomic.AddInt32(&here, 1); atomic.LoadInt32(&here) < 2; {
			runtime.Gosched()
		}
	}
	rec.Restart()
	go func() {
		meet()
		consume(rec, q)
		close(ended)
	}()
	meet()
	produce(rec, q)
	<-ended
	return Lawful("queue 8", rec)
}

func TestIsAQueue(t *testing.T) {
	rec, began := NewRingCalls(5*callsOfASide), time.Now()
	for i := 0; i < rounds; i++ {
		if err := round(rec, false); err != nil {
			t.Fatal(err)
		}
	}
	t.Logf("%d rounds of %d calls are lawful: %.1f s", rounds, 2*callsOfASide, time.Since(began).Seconds())
}

func TestItsBugIsFound(t *testing.T) {
	rec := NewRingCalls(5 * callsOfASide)
	for i := 1; i <= rounds; i++ {
		if err := round(rec, true); err != nil {
			words := err.(*RingFault).Words
			t.Logf("with the bug, round %d: %s", i, words)
			if !strings.HasPrefix(words, "fault: line ") {
				t.Fatal(err)
			}
			return
		}
	}
	t.Fatal("each of the rounds with the bug is lawful")
}

func TestTellsTheLines(t *testing.T) {
	rec := NewRingCalls(20)
	rec.Put(12)
	rec.Stored()
	rec.Take()
	rec.Empty()
	want := RingFault{
		Words:   "fault: line 5: empty, but item 12 was inside since line 3",
		Line:    5,
		Against: 3,
		Lines:   "       1  queue 8\n       2  P put 12\n>      3  P stored\n       4  C take\n>      5  C empty\n",
	}
	err := Lawful("queue 8", rec)
	if fault, ok := err.(*RingFault); !ok || *fault != want || err.Error()+"\n" != want.Words+"\n"+want.Lines {
		t.Fatal(err)
	}
}
