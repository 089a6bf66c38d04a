package life

import (
	"context"
	"os"
	"strings"
	"time"

	"tufayon/service/serving"
)

// mostTry is how long a start waits until each volume was tried that is to be staged and published anew, before it says that it serves.
const mostTry = 30 * time.Second

// machineStart tells this start of the machine from all others: by the kernel's, and by that of the first process, which is another one where a container was
// started again. It tells nothing where that isn't known.
func machineStart() string {
	boot, err := os.ReadFile("/proc/sys/kernel/random/boot_id")
	if err != nil {
		return ""
	}
	first, err := os.ReadFile("/proc/1/stat")
	if err != nil {
		return ""
	}
	fields := strings.Fields(string(first[strings.LastIndexByte(string(first), ')')+1:])) // from the third on (proc(5))
	if len(fields) < 20 {
		return ""
	}
	return strings.TrimSpace(string(boot)) + " " + fields[19] + "\n"
}

// restore has what the record has staged and published done anew, before anybody is served, where the machine was started again since all of it was there.
func (life *Life) restore(ctx context.Context, core *serving.Core) error {
	it := &life.driver
	if it.Starts == "" || it.Hooks == nil || it.Upstream != nil || life.tried != nil {
		return nil
	}
	start := it.Start()
	if kept, err := os.ReadFile(it.Starts); err == nil && start != "" && string(kept) == start {
		return nil
	}
	tried, done, err := life.anew.Begin(ctx, core)
	if err != nil {
		return err
	}
	life.tried = tried
	go func() {
		select {
		case <-done:
			keepStart(it.Starts, start) // where that fails, all is done anew at the next start, which changes nothing
		case <-core.Done():
		}
	}()
	return nil
}

// keepStart keeps that in this start of the machine all is there.
func keepStart(file, start string) error {
	next := file + ".new"
	if err := os.WriteFile(next, []byte(start), 0o600); err != nil {
		return err
	}
	return os.Rename(next, file)
}

// awaitTried waits until each volume was tried, or for a while, or until it is to end.
func (life *Life) awaitTried(ctx context.Context) {
	if life.tried == nil {
		return
	}
	select {
	case <-life.tried:
	case <-time.After(mostTry):
	case <-life.core.Done():
	case <-ctx.Done():
	}
}

// tellTroubles tells whoever runs it what isn't mounted that the record has, whenever that changes, until the context ends.
func (life *Life) tellTroubles(ctx context.Context) {
	for told := ""; ; {
		trouble, changed := life.backend.Trouble()
		if trouble.Text != told {
			if life.driver.Trouble != nil {
				life.driver.Trouble(trouble.Text)
			}
			told = trouble.Text
		}
		select {
		case <-changed:
		case <-ctx.Done():
			return
		}
	}
}
