// Package hooks does what calls ask for: by commands of whoever runs the driver, or by directories and bind mounts.
package hooks

import (
	"context"
	"errors"
	"fmt"
	"io"
	"os"
	"os/exec"
	"strings"
	"syscall"
	"time"

	"golang.org/x/sys/unix"
)

// Commands runs a command for each of these calls, by CSI's name of the call, and leaves the others to Rest. What is to be done stands in the
// command's environment, and what is private on its standard input. It has a process group of its own, and a lock of its volume (Locks).
type Commands struct {
	Of     map[string]string
	Rest   Hooks
	Within time.Duration
	Locks  Locks
}

// Judge leaves to Rest what has no command.
func (commands Commands) Judge(deed Deed) error {
	if commands.Of[deed.Call] != "" {
		return nil
	}
	return commands.Rest.Judge(deed)
}

// Do runs the call's command, for at most the time that it may take, once a command of an earlier process at this volume is ended. Where it fails the
// error is its last line, and what it started is killed with it.
func (commands Commands) Do(ctx context.Context, deed Deed) (Answer, error) {
	lock, err := commands.Locks.take(ctx, deed.Volume)
	if err != nil {
		return Answer{}, err
	}
	command := commands.Of[deed.Call]
	if command == "" {
		defer lock.release()
		return commands.Rest.Do(ctx, deed)
	}
	within, cancel := context.WithTimeout(ctx, commands.Within)
	defer cancel()
	run := running{command: command, deed: deed, lock: lock}
	output, err := run.run(within)
	switch {
	case err == nil:
		lock.release()
		return deed.ReadAnswer(output)
	case ctx.Err() != nil:
		err = fmt.Errorf("%s: the driver ended it", command)
	case within.Err() != nil:
		err = fmt.Errorf("%s: it took longer than %v", command, commands.Within)
	}
	lock.leave()
	return Answer{}, err
}

// afterKill is how long a process that was killed may take to end.
const afterKill = 5 * time.Second

// mostOutput is how many bytes of what a command writes are read: the first ones of its standard output, the last ones of its errors.
const mostOutput = 64 << 10

// A running is a command that runs for a deed.
type running struct {
	command string
	deed    Deed
	lock    *lock
}

// run runs the command to its end, and gives its output, or kills it with all that it started once the context ends.
func (run running) run(ctx context.Context) ([]byte, error) {
	command := exec.Command(run.command)
	command.Env = append(os.Environ(), run.deed.Environment()...)
	command.SysProcAttr = &syscall.SysProcAttr{Setpgid: true}
	command.ExtraFiles = []*os.File{run.lock.file} // file 3: as long as anything has it, the command isn't over
	output, err := scratch()
	if err != nil {
		return nil, err
	}
	defer output.Close()
	faults, err := scratch()
	if err != nil {
		return nil, err
	}
	defer faults.Close()
	command.Stdout, command.Stderr = output, faults // files, and no pipes that what it left running could hold open
	reads, writes, err := os.Pipe()
	if err != nil {
		return nil, err
	}
	defer writes.Close() // ends the goroutine, if the command doesn't read
	command.Stdin = reads
	err = command.Start()
	reads.Close()
	if err != nil {
		return nil, fmt.Errorf("%s: %w", run.command, err)
	}
	run.lock.write(command.Process.Pid)
	defer trimming(output, faults)()
	go func() {
		writes.Write(run.deed.Input())
		writes.Close()
	}()
	if err := run.await(ctx, command); err != nil {
		return nil, run.fault(err, output, faults)
	}
	return first(output), nil
}

// await waits for the command's end. It kills its group where the context ends before, and where it failed.
func (run running) await(ctx context.Context, command *exec.Cmd) error {
	ended := make(chan error, 1)
	go func() { ended <- command.Wait() }()
	select {
	case err := <-ended:
		if err != nil {
			syscall.Kill(-command.Process.Pid, syscall.SIGKILL)
		}
		return err
	case <-ctx.Done():
	}
	syscall.Kill(-command.Process.Pid, syscall.SIGKILL)
	select {
	case <-ended:
	case <-time.After(afterKill): // it is in the kernel: its lock tells that it is there still
	}
	return ctx.Err()
}

// trimAgain is how long a command may write until the room is given back that what it wrote takes.
const trimAgain = 500 * time.Millisecond

// trimming has files trimmed again and again, until what it gives is called: a command that writes without an end, as one that asks somebody who isn't there,
// doesn't fill the disk.
func trimming(files ...*os.File) (end func()) {
	stop, stopped := make(chan struct{}), make(chan struct{})
	go func() {
		defer close(stopped)
		again := time.NewTicker(trimAgain)
		defer again.Stop()
		for {
			select {
			case <-again.C:
				for _, it := range files {
					trim(it)
				}
			case <-stop:
				return
			}
		}
	}()
	return func() {
		close(stop)
		<-stopped
	}
}

// trim gives back the room of a file between its first bytes and its last ones, which alone are read. Its place, which a command shares, stays as it is.
func trim(file *os.File) {
	status, err := file.Stat()
	if err != nil || status.Size() <= 4*mostOutput {
		return
	}
	const how = unix.FALLOC_FL_PUNCH_HOLE | unix.FALLOC_FL_KEEP_SIZE
	_ = unix.Fallocate(int(file.Fd()), how, mostOutput, status.Size()-2*mostOutput) // some file systems can't
}

// fault is what a command that failed said last, without what is private.
func (run running) fault(err error, output, faults *os.File) error {
	for _, file := range []*os.File{faults, output} {
		text, isCut := last(file)
		if isCut {
			text = run.deed.hideRest(text)
		}
		if line := lastLine(run.deed.Hide(text)); line != "" { // hidden before: a secret may have several lines
			return errors.New(line)
		}
	}
	return fmt.Errorf("%s: %w", run.command, err)
}

// scratch makes a file without a name.
func scratch() (*os.File, error) {
	file, err := os.CreateTemp("", "hook")
	if err != nil {
		return nil, err
	}
	return file, os.Remove(file.Name())
}

func first(file *os.File) []byte {
	said, _ := io.ReadAll(io.NewSectionReader(file, 0, mostOutput))
	return said
}

// last gives the last bytes of a file, and whether there are others before them.
func last(file *os.File) (text string, isCut bool) {
	end, _ := file.Seek(0, io.SeekEnd)
	from := end - 4096
	if from < 0 {
		from = 0
	}
	said, _ := io.ReadAll(io.NewSectionReader(file, from, 4096))
	return string(said), from > 0
}

func lastLine(output string) string {
	lines := strings.Split(strings.TrimSpace(output), "\n")
	return strings.ToValidUTF8(strings.TrimSpace(lines[len(lines)-1]), "?")
}
