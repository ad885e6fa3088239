// go_chan.go: Go's channel of capacity 8. No argument: lists its variants; NAME CALLS: writes a recording.
package main

import (
	"fmt"
	"os"
	"runtime"
	"strconv"
	"sync"
)

func main() {
	if len(os.Args) != 3 {
		fmt.Println("go_chan lawful\ngo_chan_waiting lawful")
		return
	}
	waits := os.Args[1] == "go_chan_waiting"
	calls, _ := strconv.Atoi(os.Args[2])
	rec := NewRingCalls(calls*32 + 4096)
	q := make(chan uint64, 8)
	var both sync.WaitGroup
	both.Add(2)
	go func() {
		defer both.Done()
		item := uint64(0)
		for i := 0; i < calls; i++ {
			stored := true
			rec.Put(item)
			if waits {
				q <- item
			} else {
				select {
				case q <- item:
				default:
					stored = false
				}
			}
			if stored {
				rec.Stored()
				item++
			} else {
				rec.Full()
				runtime.Gosched()
			}
		}
		rec.Close()
		close(q)
		rec.Closed()
	}()
	go func() {
		defer both.Done()
		for {
			var item uint64
			open, ready := true, true
			rec.Take()
			if waits {
				item, open = <-q
			} else {
				select {
				case item, open = <-q:
				default:
					ready = false
				}
			}
			if !ready {
				rec.Empty()
				runtime.Gosched()
			} else if open {
				rec.Item(item)
			} else {
				rec.Told()
				return
			}
		}
	}()
	both.Wait()
	if rec.Write("queue 8", os.Stdout) != nil {
		os.Exit(1)
	}
}
