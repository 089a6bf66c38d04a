package hooks

import (
	"context"
	"errors"
	"fmt"
	"os"
	"path/filepath"
	"strconv"
	"strings"
	"syscall"
	"time"
)

// Locks are files in a folder, one for each volume for which something is being done. A command inherits its volume's, locked, and so does all that it
// starts: it lives on where the driver is killed, and the next driver ends it before anything else is done at that volume.
type Locks struct {
	Folder string // none: nothing is locked
}

// errRuns says that what an earlier process did at a volume can't be ended.
var errRuns = errors.New("an earlier hook of this volume runs still")

// A lock is a volume's, that this process has.
type lock struct {
	file *os.File
}

// take takes a volume's lock. Where a command of an earlier process has it, its process group is killed.
func (locks Locks) take(ctx context.Context, volume uint64) (*lock, error) {
	if locks.Folder == "" {
		file, err := scratch()
		return &lock{file}, err
	}
	if err := os.MkdirAll(locks.Folder, 0o700); err != nil {
		return nil, err
	}
	path := filepath.Join(locks.Folder, strconv.FormatUint(volume, 10))
	until := time.Now().Add(afterKill)
	for {
		taken, err := tryLock(path)
		if err == nil || !errors.Is(err, syscall.EWOULDBLOCK) {
			return taken, err
		}
		held, err := endHolders(path)
		if err != nil {
			return nil, err
		}
		if !held { // what has it left the command's group: a daemon, and the command is over
			os.Remove(path)
			continue
		}
		if ctx.Err() != nil || time.Now().After(until) {
			return nil, errRuns
		}
		time.Sleep(10 * time.Millisecond)
	}
}

// tryLock takes the lock of a file, which is made where it is missing. It fails with EWOULDBLOCK where somebody has it.
func tryLock(path string) (*lock, error) {
	file, err := os.OpenFile(path, os.O_RDWR|os.O_CREATE|syscall.O_NOFOLLOW, 0o600)
	if err != nil {
		return nil, err
	}
	if err := syscall.Flock(int(file.Fd()), syscall.LOCK_EX|syscall.LOCK_NB); err != nil {
		file.Close()
		return nil, fmt.Errorf("%s: %w", path, err)
	}
	if err := file.Truncate(0); err != nil {
		file.Close()
		return nil, err
	}
	return &lock{file}, nil
}

// write notes the process group that inherited the lock.
func (lock *lock) write(group int) { lock.file.WriteAt([]byte(strconv.Itoa(group)), 0) }

// release gives the lock up, with its file: what a command that succeeded left running has that file still, which holds nothing up.
func (lock *lock) release() {
	os.Remove(lock.file.Name())
	lock.file.Close()
}

// leave gives the lock up once all that a command started has ended.
func (lock *lock) leave() { lock.file.Close() }

// endHolders kills the processes that have the file of a lock open, with their group, if they are of the group that is noted there, or of any where
// none is; and says whether there were any.
func endHolders(path string) (bool, error) {
	noted, err := os.ReadFile(path)
	if err != nil {
		return false, err
	}
	locked, err := lockedAt(path)
	if err != nil {
		return false, err
	}
	processes, err := filepath.Glob("/proc/[0-9]*")
	if err != nil {
		return false, err
	}
	held := false
	for _, process := range processes {
		id, _ := strconv.Atoi(filepath.Base(process))
		if id == os.Getpid() || !locked.isOpenIn(process) {
			continue
		}
		group, err := syscall.Getpgid(id)
		if err != nil || len(noted) > 0 && strconv.Itoa(group) != strings.TrimSpace(string(noted)) {
			continue
		}
		held = true
		if group == id || len(noted) > 0 {
			syscall.Kill(-group, syscall.SIGKILL)
		} else {
			syscall.Kill(id, syscall.SIGKILL)
		}
	}
	if group, err := strconv.Atoi(strings.TrimSpace(string(noted))); err == nil && !held {
		held = errors.Is(syscall.Kill(-group, 0), syscall.EPERM) // another user's, which can't be looked at: it is waited for
	}
	return held, nil
}

// A locked is the file of a lock, that somebody may have open.
type locked struct {
	path string // without symbolic links, as the kernel shows it
	file os.FileInfo
}

func lockedAt(path string) (locked, error) {
	file, err := os.Stat(path)
	if err != nil {
		return locked{}, err
	}
	if path, err = filepath.Abs(path); err == nil {
		path, err = filepath.EvalSymlinks(path)
	}
	return locked{path, file}, err
}

// isOpenIn says whether a process has the file open. Of what else it has open only the names are read: who asks for more may wait for ever for a server
// that is gone.
func (locked locked) isOpenIn(process string) bool {
	open, err := filepath.Glob(process + "/fd/*")
	if err != nil {
		return false
	}
	for _, it := range open {
		if name, err := os.Readlink(it); err != nil || strings.TrimSuffix(name, " (deleted)") != locked.path {
			continue
		}
		if other, err := os.Stat(it); err == nil && os.SameFile(locked.file, other) {
			return true
		}
	}
	return false
}
