// A plugin in Go, by cgo: what `plugin.c` does, over the same file, with the same words, in groups of the frames that are there together. It is built of
// this file and `store.go`.
package main

// #include "tufayon.h"
// static uint32_t made(bool is_controller, const uint8_t *name, size_t length, const uint8_t *record, size_t size, tufayon_plugin *plugin) {
//     return size == 0 ? (is_controller ? tufayon_controller_new : tufayon_node_new)(name, length, plugin)
//                      : (is_controller ? tufayon_controller_from_record : tufayon_node_from_record)(name, length, record, size, plugin);
// }
import "C"
import (
	"bufio"
	"io"
	"os"
	"runtime"
)

var reply = make([]byte, C.TUFAYON_REPLY_ROOM)

// Answers all whole frames of these bytes, behind which there is one byte more: how many bytes they took, their replies, and why there is no other.
func answerAll(frames []byte) (at int, replies []byte, ending C.uint32_t) {
	for used, written := C.size_t(0), C.size_t(0); ; at += int(used) {
		// Who attaches, stages or mounts something on a call ends the group before and behind it.
		ending = C.tufayon_answer(&held, out(frames[at:]), C.size_t(len(frames)-1-at), &used, out(reply), C.TUFAYON_REPLY_ROOM, &written)
		if ending != C.TUFAYON_DONE {
			return at, replies, ending
		}
		putChanges()
		replies = append(replies, reply[:written]...)
	}
}

func main() {
	runtime.LockOSThread() // one thread makes all calls
	must(len(os.Args) == 4, "controller DB CONFIG, or node DB ID")
	isController, name := os.Args[1] == "controller", []byte(os.Args[3])
	if isController {
		name, _ = os.ReadFile(os.Args[3])
	}
	openStore(os.Args[2])
	record := load()
	ending := C.made(C.bool(isController), in(name), C.size_t(len(name)), in(record), C.size_t(len(record)), &held)
	must(ending == C.TUFAYON_DONE || ending == C.TUFAYON_RENEWED, "no record of this plugin")
	if ending == C.TUFAYON_RENEWED {
		begin()
		run("DELETE FROM parts")
	}
	putChanges()
	commit()
	input, left, err := bufio.NewReaderSize(os.Stdin, 1<<16), 0, error(nil)
	for err == nil {
		there, _ := input.Peek(input.Buffered())
		at, replies, ending := answerAll(append(there[:len(there):len(there)], 0))
		commit() // if it is refused the program ends, and so nothing is sent
		_, err = os.Stdout.Write(replies)
		must(ending == C.TUFAYON_SHORT, "no frame, or no memory")
		input.Discard(at)
		if left = len(there) - at; err == nil {
			_, err = input.Peek(left + 1) // waits for more
		}
	}
	closeStore()
	must(err == io.EOF && left == 0, "the input ends in a frame, or the output")
}
