package hooks

import (
	"context"
	"os"
	"path/filepath"
	"strconv"
	"strings"
	"syscall"
	"time"
)

// reapAgain is how long who has ended is left to those who wait for it.
const reapAgain = 10 * time.Second

// Reap waits for what commands left running once that has ended, until the context ends, where this process is a container's first one: there they become its
// children, for whom nobody else waits, and each would keep its number for ever. It gives at once.
func Reap(ctx context.Context) {
	if os.Getpid() != 1 {
		return
	}
	go func() {
		again := time.NewTicker(reapAgain)
		defer again.Stop()
		for ended := map[int]bool{}; ; {
			select {
			case <-again.C:
				ended = reap(ended)
			case <-ctx.Done():
				return
			}
		}
	}()
}

// reap waits for the children of this process that had ended by the last time, and gives those that have ended by now. Who waits for a command does so at once.
func reap(before map[int]bool) map[int]bool {
	ended := map[int]bool{}
	processes, _ := filepath.Glob("/proc/[0-9]*")
	for _, process := range processes {
		id, _ := strconv.Atoi(filepath.Base(process))
		switch {
		case !isEndedChild(process):
		case before[id]:
			_, _ = syscall.Wait4(id, nil, syscall.WNOHANG, nil)
		default:
			ended[id] = true
		}
	}
	return ended
}

// isEndedChild says whether a process is a child of this one that has ended, and waits for that to be noticed (proc(5)).
func isEndedChild(process string) bool {
	status, err := os.ReadFile(process + "/stat")
	if err != nil {
		return false
	}
	fields := strings.Fields(string(status[strings.LastIndexByte(string(status), ')')+1:]))
	return len(fields) > 1 && fields[0] == "Z" && fields[1] == strconv.Itoa(os.Getpid())
}
