// kinds WORDS: records each kind of event, in logs of WORDS words; without WORDS no event.
package main

import (
	"math"
	"os"
	"strconv"
)

func main() {
	if len(os.Args) == 1 {
		NewRingCalls(8).Write("queue 2", os.Stdout)
		return
	}
	words, _ := strconv.Atoi(os.Args[1])
	rec := NewRingCalls(words)
	rec.Put(5)
	rec.Take()
	rec.Stored()
	rec.Item(5)
	rec.Put(1, 2, 3)
	rec.StoredOf(2, 3)
	rec.Put(4)
	rec.Full()
	rec.Put(4, 5)
	rec.PutShort()
	rec.Put(6)
	rec.PutNothing()
	rec.TakeAll(3)
	rec.TakeShort()
	rec.TakeAll(3)
	rec.Item(1, 2)
	rec.Take()
	rec.Empty()
	rec.Take()
	rec.TakeNothing()
	rec.Put(1, 2, 3)
	rec.Some(2)
	rec.Put(6)
	rec.Some(0)
	rec.TakeAll(3)
	rec.SomeItems(1, 2)
	rec.Take()
	rec.SomeItems()
	rec.Close()
	rec.Closed()
	rec.Put(7, math.MaxUint64)
	rec.Closed()
	rec.Take()
	rec.Told()
	if rec.Write("queue 2", os.Stdout) != nil {
		os.Exit(1)
	}
}
