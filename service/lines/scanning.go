package lines

import (
	"bufio"
	"bytes"
	"errors"
	"fmt"
	"io"
)

// mostOfLine is the most bytes of a line, without its newline.
const mostOfLine = 65536

// ErrLong says that a line is too long.
var ErrLong = errors.New("line fault")

// A Scanner takes lines from a stream, the last one also where no newline ends it.
type Scanner struct {
	lines *bufio.Scanner
	count int
	waits bool
}

// NewScanner begins with the first line.
func NewScanner(input io.Reader) *Scanner {
	scanner := &Scanner{lines: bufio.NewScanner(input)}
	scanner.lines.Buffer(nil, mostOfLine+2)
	scanner.lines.Split(func(data []byte, atEnd bool) (int, []byte, error) {
		used, line, err := split(data, atEnd)
		scanner.waits = bytes.IndexByte(data[used:], '\n') >= 0
		return used, line, err
	})
	return scanner
}

func split(data []byte, atEnd bool) (int, []byte, error) {
	size := bytes.IndexByte(data, '\n')
	switch {
	case size > mostOfLine || size < 0 && len(data) > mostOfLine:
		return 0, nil, ErrLong
	case size >= 0:
		return size + 1, data[:size], nil
	case atEnd && len(data) > 0:
		return len(data), data, nil
	}
	return 0, nil, nil
}

// Scan says whether there is a next line.
func (scanner *Scanner) Scan() bool {
	scanner.count++
	return scanner.lines.Scan()
}

// Line is the line that was found last, without its newline, until the next one is looked for.
func (scanner *Scanner) Line() []byte { return scanner.lines.Bytes() }

// Waits says whether another whole line was read already, so that Scan waits for nothing.
func (scanner *Scanner) Waits() bool { return scanner.waits }

// Err says why there is no next line: nil where the stream ended, or ErrLong with the line's number, from 1.
func (scanner *Scanner) Err() error {
	if err := scanner.lines.Err(); errors.Is(err, ErrLong) {
		return fmt.Errorf("%w at %d", ErrLong, scanner.count)
	} else if err != nil {
		return fmt.Errorf("device: %w", err)
	}
	return nil
}
