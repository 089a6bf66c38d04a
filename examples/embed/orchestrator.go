// An orchestrator in Go, by cgo: what `orchestrator.c` does, over the same file, asked by the same lines, in groups of those that are there together. It
// is built of this file and `store.go`.
package main

// #include "tufayon.h"
// static uint32_t made(const uint8_t *config, size_t length, const uint8_t *record, size_t size, tufayon_plugin *orchestrator) {
//     return size == 0 ? tufayon_orchestrator_new(config, length, orchestrator)
//                      : tufayon_orchestrator_from_record(config, length, record, size, orchestrator);
// }
import "C"
import (
	"bufio"
	"bytes"
	"encoding/hex"
	"fmt"
	"os"
	"runtime"
	"strconv"
	"strings"
)

var frame = make([]byte, C.TUFAYON_FRAME_ROOM)
var written, used C.size_t
var fault C.uint32_t

func unhex(digits string) []byte {
	bytes, err := hex.DecodeString(digits)
	must(err == nil, "no hexadecimal")
	return bytes
}
func size(bytes []byte) C.size_t { return C.size_t(len(bytes)) }
func number(digits string) C.uint64_t {
	it, err := strconv.ParseUint(digits, 10, 64)
	must(err == nil, "no number")
	return C.uint64_t(it)
}

// Asks what the words say, and how that ends.
func ask(words []string) C.uint32_t {
	room, name, given := size(frame), []byte(words[1]), []byte(nil)
	switch words[0] {
	case "create":
		if len(words) > 4 {
			given = unhex(words[4])
		}
		return C.tufayon_create(&held, in(name), size(name), number(words[2]), number(words[3]), in(given), size(given), out(frame), room, &written, &fault)
	case "use":
		node, target, readonly := []byte(words[2]), []byte(words[3]), C.bool(words[5] == "ro")
		given = unhex(words[4])
		return C.tufayon_use(&held, in(name), size(name), in(node), size(node), in(target), size(target), in(given), size(given), readonly,
			out(frame), room, &written, &fault)
	case "stop":
		node, target := []byte(words[2]), []byte(words[3])
		return C.tufayon_stop(&held, in(name), size(name), in(node), size(node), in(target), size(target), out(frame), room, &written, &fault)
	case "delete":
		return C.tufayon_delete(&held, in(name), size(name), out(frame), room, &written, &fault)
	case "lose":
		written = 0
		return C.tufayon_orchestrator_lose(&held, in(name), size(name), &fault)
	case "timeout":
		return C.tufayon_timeout(&held, in(name), size(name), out(frame), room, &written, &fault)
	}
	must(words[0] == "reply", "no request")
	given = unhex(words[1])
	return C.tufayon_deliver(&held, in(given), size(given), &used, out(frame), room, &written, &fault)
}

func answer(ending C.uint32_t, asked string) string {
	switch ending {
	case C.TUFAYON_MET:
		return "met"
	case C.TUFAYON_IGNORED:
		return "ignored"
	case C.TUFAYON_REFUSED:
		return fmt.Sprint("refused ", fault)
	}
	must(ending == C.TUFAYON_DONE, "no request, or no memory")
	line := "sent"
	switch asked {
	case "reply":
		line = "taken"
	case "lose":
		line = "lost"
	}
	if written > 0 {
		line += " " + hex.EncodeToString(frame[:written])
	}
	return line
}

// The names of which something is wanted: when it begins, their timeouts are due.
func wanted() string {
	line, name, goal, length := "wanted", make([]byte, C.TUFAYON_NAME_ROOM), make([]byte, C.TUFAYON_GOAL_ROOM), C.size_t(0)
	for place := C.size_t(0); C.tufayon_volume(&held, place, out(name), size(name), &length) == C.TUFAYON_DONE; place++ {
		must(C.tufayon_goal(&held, out(name), length, out(goal), size(goal), &written) == C.TUFAYON_DONE, "no memory")
		if goal[0] != 0 {
			line += " " + string(name[:length])
		}
	}
	return line
}

func main() {
	runtime.LockOSThread() // one thread makes all calls
	must(len(os.Args) == 3, "DB CONFIG")
	config, err := os.ReadFile(os.Args[2])
	must(err == nil, "no CONFIG")
	openStore(os.Args[1])
	record := load()
	ending := C.made(in(config), size(config), in(record), size(record), &held)
	must(ending != C.TUFAYON_NODE_IN_USE, "a volume may be attached at a node that CONFIG leaves out")
	must(ending == C.TUFAYON_DONE, "no record of an orchestrator, or no session is left")
	putChanges() // its session, before any frame is sent
	commit()
	fmt.Println(wanted())
	answers, input := "", bufio.NewReaderSize(os.Stdin, 1<<16)
	for line, err := input.ReadString('\n'); err == nil; line, err = input.ReadString('\n') {
		words := strings.Split(strings.TrimSuffix(line, "\n"), " ")
		ending = ask(words)
		if ending != C.TUFAYON_REFUSED {
			putChanges()
		}
		answers += answer(ending, words[0]) + "\n"
		if there, _ := input.Peek(input.Buffered()); !bytes.Contains(there, []byte("\n")) {
			commit() // if it is refused the program ends, and so nothing is written
			fmt.Print(answers)
			answers = ""
		}
	}
	closeStore()
}
