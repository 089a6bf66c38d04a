package hosting

import (
	"bufio"
	"fmt"
	"io"
	"os"
	"os/exec"
	"syscall"
)

// process is an orchestrator that runs beside this program.
type process struct {
	command *exec.Cmd
	input   io.WriteCloser
	output  *bufio.Reader
}

// Run starts the command of an orchestrator, and gives its first line too.
func Run(words ...string) (Orchestrator, Answer, error) {
	running := &process{command: exec.Command(words[0], words[1:]...)}
	running.command.Stderr = os.Stderr
	running.command.SysProcAttr = &syscall.SysProcAttr{Setpgid: true} // a terminal's interrupt is the host's, which ends it in order
	input, err := running.command.StdinPipe()
	if err != nil {
		return nil, Answer{}, fmt.Errorf("%w: %v", ErrOrchestrator, err)
	}
	output, err := running.command.StdoutPipe()
	if err != nil {
		return nil, Answer{}, fmt.Errorf("%w: %v", ErrOrchestrator, err)
	}
	running.input, running.output = input, bufio.NewReader(output)
	if err := running.command.Start(); err != nil {
		return nil, Answer{}, fmt.Errorf("%w: %v", ErrOrchestrator, err)
	}
	first, err := running.read()
	if err != nil {
		running.Close()
		return nil, Answer{}, err
	}
	return running, first, nil
}

func (running *process) read() (Answer, error) {
	line, err := running.output.ReadBytes('\n')
	if err != nil {
		return Answer{}, fmt.Errorf("%w: %v", ErrOrchestrator, err)
	}
	return answerOf(line)
}

func (running *process) Answers(asked [][]byte) ([]Answer, error) {
	var input []byte
	for _, line := range asked {
		input = append(append(input, line...), '\n')
	}
	wrote := make(chan error, 1)
	go func() { // beside the reading: neither pipe need have room for all of it
		_, err := running.input.Write(input)
		wrote <- err
	}()
	answers := make([]Answer, 0, len(asked))
	for range asked {
		answer, err := running.read()
		if err != nil {
			return answers, err
		}
		answers = append(answers, answer)
	}
	if err := <-wrote; err != nil {
		return answers, fmt.Errorf("%w: %v", ErrOrchestrator, err)
	}
	return answers, nil
}

func (running *process) Close() error {
	running.input.Close()
	if err := running.command.Wait(); err != nil {
		return fmt.Errorf("%w: %v", ErrOrchestrator, err)
	}
	return nil
}
