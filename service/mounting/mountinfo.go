package mounting

import (
	"errors"
	"fmt"
	"os"
	"path"
	"strconv"
	"strings"
)

// A source is what a mount shows: a directory, or a file, of a file system. Two mounts of one source show the same.
type source struct {
	device string // major:minor, as the kernel lists it
	root   string // its path in the file system; of NFS, which lists each as /, the server and the path there
}

// A mount is a line of /proc/self/mountinfo (proc(5)), as far as it is needed.
type mount struct {
	id int
	source
	point string
}

// mountOf is the id of the mount in which a file was opened.
func mountOf(file *os.File) (int, error) {
	content, err := os.ReadFile(fmt.Sprintf("/proc/self/fdinfo/%d", file.Fd()))
	if err != nil {
		return 0, err
	}
	for _, line := range strings.Split(string(content), "\n") {
		if text := strings.TrimPrefix(line, "mnt_id:"); text != line {
			return strconv.Atoi(strings.TrimSpace(text))
		}
	}
	return 0, errors.New("the kernel doesn't tell a file's mount")
}

// mountWith gives the mount that has the id.
func mountWith(id int) (mount, error) {
	found, err := mounts(func(it mount) bool { return it.id == id })
	if err == nil && len(found) == 0 {
		err = fmt.Errorf("the mount %d isn't listed", id)
	}
	if err != nil {
		return mount{}, err
	}
	return found[0], nil
}

// mounts gives those that are wanted, in the order in which they were mounted.
func mounts(wanted func(mount) bool) ([]mount, error) {
	content, err := os.ReadFile("/proc/self/mountinfo")
	if err != nil {
		return nil, err
	}
	return readMounts(content, wanted)
}

func readMounts(content []byte, wanted func(mount) bool) ([]mount, error) {
	var found []mount
	for _, line := range strings.Split(strings.TrimSuffix(string(content), "\n"), "\n") {
		it, err := readMount(line)
		if err != nil {
			return nil, err
		}
		if wanted(it) {
			found = append(found, it)
		}
	}
	return found, nil
}

// readMount reads a line: the mount's id, its parent's, the device, the root, the point, and more.
func readMount(line string) (mount, error) {
	fields := strings.SplitN(line, " ", 6)
	if len(fields) < 6 {
		return mount{}, fmt.Errorf("no line of a mount: %q", line)
	}
	id, err := strconv.Atoi(fields[0])
	return mount{id: id, source: source{device: fields[2], root: rootOf(fields[3], fields[5])}, point: unescaped(fields[4])}, err
}

// rootOf is the root of a mount, of which the list has this one, and behind the point this: options, a dash, the type, the device, and more.
func rootOf(listed, rest string) string {
	_, behind, _ := strings.Cut(rest, " - ")
	if of := strings.Fields(behind); len(of) > 1 && strings.HasPrefix(of[0], "nfs") {
		return path.Clean(unescaped(of[1]))
	}
	return unescaped(listed)
}

// unescaped reads a path of the list, in which blanks and backslashes are written as a backslash and three octal digits.
func unescaped(text string) string {
	if !strings.ContainsRune(text, '\\') {
		return text
	}
	var read strings.Builder
	for at := 0; at < len(text); at++ {
		if text[at] == '\\' && at+3 < len(text) {
			if char, err := strconv.ParseUint(text[at+1:at+4], 8, 8); err == nil {
				read.WriteByte(byte(char))
				at += 3
				continue
			}
		}
		read.WriteByte(text[at])
	}
	return read.String()
}

// sourceAt is what a bind mount of an opened file, whose clean path has no link, shows.
func sourceAt(file *os.File, whole string) (source, error) {
	id, err := mountOf(file)
	if err != nil {
		return source{}, err
	}
	in, err := mountWith(id)
	if err != nil {
		return source{}, err
	}
	rest := whole
	if in.point != "/" {
		if rest = strings.TrimPrefix(whole, in.point); rest == whole || rest != "" && rest[0] != '/' {
			return source{}, fmt.Errorf("%s isn't below its mount's point, %s", whole, in.point)
		}
	}
	return source{device: in.device, root: path.Join(in.root, rest)}, nil
}
