// judge.go: judge FILE..: judges each recording in process, as the logs of a recorder that makes it anew. For each it prints what
// audit --calls prints about it, and an empty line; the report of a fault is on stderr. It panics if what was made is another
// one.
package main

import (
	"fmt"
	"os"
	"strconv"
	"strings"
)

func must(holds bool, what interface{}) {
	if !holds {
		panic(what)
	}
}

func record(rec *RingCalls, kind int, numbers []uint64) {
	first := append(numbers, 0)[0]
	switch kind {
	case 0:
		rec.Put(numbers...)
	case 1:
		rec.Close()
	case 2:
		rec.TakeAll(first)
	case 3:
		if first > 0 {
			rec.StoredOf(first, first+1)
		} else {
			rec.Stored()
		}
	case 4:
		rec.Some(first)
	case 5:
		rec.Full()
	case 6:
		rec.PutShort()
	case 7:
		rec.PutNothing()
	case 8:
		rec.Closed()
	case 9:
		rec.Item(numbers...)
	case 10:
		rec.SomeItems(numbers...)
	case 11:
		rec.Empty()
	case 12:
		rec.TakeShort()
	case 13:
		rec.TakeNothing()
	default:
		rec.Told()
	}
}

// First lines.
func tryEdges() {
	words, rec := "refused: calls line 1 is not a line of the format", NewRingCalls(0)
	for _, head := range []string{"queue", "queue 1", "queue 18446744073709551615", "queue 0 1", "queue 9 10"} {
		must(Lawful(head, rec) == nil, head)
	}
	for _, head := range []string{"", "queue ", "queue 0", "queue 08", "queue +8", "queue 8 ", "queue  8", "queue 8 8",
		"queue 1 2 3", "queue x", "queue 18446744073709551616", "queue8", "cut queue 8"} {
		err := Lawful(head, rec)
		must(err != nil && err.(*RingFault).Words == words, head)
	}
}

// Makes a recording again. A cut one is made in logs with no room for more, by one more call.
func remade(text string) (string, *RingCalls) {
	lines := strings.Split(strings.TrimSuffix(text, "\n"), "\n")
	head := strings.TrimPrefix(lines[0], "cut ")
	rec := NewRingCalls(len(text))
	for again := 0; again < 2; again++ {
		rec.Restart()
		for _, line := range lines[1:] {
			words := strings.Split(line, " ")
			kind, numbers := 0, []uint64{}
			for kind = range ringWords {
				if ringWords[kind] == words[0]+" "+words[1] {
					break
				}
			}
			for _, word := range words[2:] {
				number, err := strconv.ParseUint(word, 10, 64)
				must(err == nil, line)
				numbers = append(numbers, number)
			}
			record(rec, kind, numbers)
		}
		if head != lines[0] {
			rec.c.words = rec.c.words[:rec.c.used]
			rec.Take()
		}
	}
	return head, rec
}

func main() {
	tryEdges()
	fmt.Fprintln(os.Stderr, len(os.Args)-1, "recordings")
	for _, name := range os.Args[1:] {
		text, err := os.ReadFile(name)
		must(err == nil, err)
		head, rec := remade(string(text))
		var written strings.Builder
		must(rec.Write(head, &written) == nil && written.String() == string(text), name)
		report, err := Judge(head, rec)
		must((err == nil) == (Lawful(head, rec) == nil), name)
		if err == nil {
			fmt.Println(report)
		} else {
			fmt.Println(err.(*RingFault).Words + "\n")
			fmt.Fprintln(os.Stderr, err)
		}
	}
}
