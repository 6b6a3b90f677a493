// Workers share a map: jobs come over a channel, a mutex guards what they find, and a wait group tells
// when all is done.
package main

import (
	"fmt"
	"strings"
	"sync"
)

const text = `So we ran to the boats, and the boats were gone;
and the sea lay still, and the still sea shone.
Then we built a boat of the boards of the door,
and the sea lay still as it lay before.`

// A tally counts words for all workers.
type tally struct {
	mutex sync.Mutex
	lines int
	count map[string]int
}

func (t *tally) add(words []string) {
	t.mutex.Lock()
	defer t.mutex.Unlock()
	t.lines++
	for _, word := range words {
		t.count[word]++
	}
}

// words gives the words of a line, without the marks around them.
func words(line string) []string {
	var all []string
	for _, word := range strings.Fields(line) {
		for len(word) > 0 && !isLetter(word[len(word)-1]) {
			word = word[:len(word)-1]
		}
		all = append(all, word)
	}
	return all
}

func isLetter(c byte) bool { return 'a' <= c && c <= 'z' || 'A' <= c && c <= 'Z' }

func main() {
	lines := make(chan string)
	found := tally{count: map[string]int{}}
	var group sync.WaitGroup
	for w := 0; w < 3; w++ {
		group.Add(1)
		go func() {
			defer group.Done()
			for line := range lines {
				found.add(words(line))
			}
		}()
	}
	for _, line := range strings.Split(text, "\n") {
		lines <- line
	}
	close(lines)
	group.Wait()

	fmt.Println(found.lines, "lines,", len(found.count), "words")
	for _, word := range []string{"the", "sea", "and", "still", "boats", "door"} {
		fmt.Printf("%-6s %d\n", word, found.count[word])
	}
}
