package mounting

import (
	"errors"
	"fmt"
	"io"
	"os"
	"path/filepath"

	"golang.org/x/sys/unix"

	"tufayon/service/hooks"
)

// ErrPath says that a path isn't absolute, names a parent directory, or has no name at its end.
var ErrPath = errors.New("no absolute path without ..")

// ErrLink says that a symbolic link stands in a path: none is followed, since whoever can make one could lead the driver anywhere.
var ErrLink = errors.New("a symbolic link stands in the path")

// clean gives an absolute path without `..` as the kernel lists it: without a second slash, `.`, or a slash at its end.
func clean(path string) (string, error) {
	if !hooks.IsAbsolute(path) {
		return "", fmt.Errorf("%s: %w", path, ErrPath)
	}
	return filepath.Clean(path), nil
}

// open opens a path below a directory without following a link. What is mounted at its end is what is opened.
func open(below int, path string, flags uint64) (*os.File, error) {
	how := unix.OpenHow{Flags: flags | unix.O_CLOEXEC, Resolve: unix.RESOLVE_NO_SYMLINKS | unix.RESOLVE_NO_MAGICLINKS}
	for {
		descriptor, err := unix.Openat2(below, path, &how)
		switch {
		case errors.Is(err, unix.EINTR):
			continue
		case errors.Is(err, unix.ELOOP):
			return nil, ErrLink
		case err != nil:
			return nil, err
		}
		return os.NewFile(uintptr(descriptor), path), nil
	}
}

// openDirectory opens the directory of a path, to mount it or to mount there, but not to read it.
func openDirectory(path string) (*os.File, error) {
	directory, err := open(unix.AT_FDCWD, path, unix.O_PATH|unix.O_DIRECTORY)
	if err != nil {
		return nil, fmt.Errorf("%s: %w", path, err)
	}
	return directory, nil
}

// A place is a name in a directory that was reached without following a link: what is done there is done in that directory, wherever the path
// leads by then.
type place struct {
	path      string // the whole of it, clean
	name      string
	directory *os.File
}

// openPlace opens the directory of a path's last name, which has to be there; what has the name needn't.
func openPlace(path string) (*place, error) {
	whole, err := clean(path)
	if err != nil {
		return nil, err
	}
	if whole == "/" {
		return nil, fmt.Errorf("%s: %w", path, ErrPath)
	}
	directory, err := openDirectory(filepath.Dir(whole))
	if err != nil {
		return nil, err
	}
	return &place{path: whole, name: filepath.Base(whole), directory: directory}, nil
}

func (place *place) close() { place.directory.Close() }

func (place *place) below() int { return int(place.directory.Fd()) }

// fails says of what place a failure is.
func (place *place) fails(err error) error {
	if err == nil {
		return nil
	}
	return fmt.Errorf("%s: %w", place.path, err)
}

// open opens what has the name: what is mounted there, where something is.
func (place *place) open(flags uint64) (*os.File, error) {
	file, err := open(place.below(), place.name, flags)
	return file, place.fails(err)
}

// make makes a directory, where nothing has the name, and says whether it did.
func (place *place) make() (made bool, err error) {
	err = unix.Mkdirat(place.below(), place.name, 0o750)
	if errors.Is(err, unix.EEXIST) {
		return false, nil
	}
	return err == nil, place.fails(err)
}

// isEmpty says whether the directory that has the name has nothing in it.
func (place *place) isEmpty() (bool, error) {
	directory, err := place.open(unix.O_RDONLY | unix.O_DIRECTORY)
	if err != nil {
		return false, err
	}
	defer directory.Close()
	_, err = directory.Readdirnames(1)
	if errors.Is(err, io.EOF) {
		return true, nil
	}
	return false, place.fails(err)
}

// take takes out an empty directory, or an empty file, which earlier drivers made of a block device. All else stays.
func (place *place) take() error {
	err := unix.Unlinkat(place.below(), place.name, unix.AT_REMOVEDIR)
	switch {
	case errors.Is(err, unix.ENOTDIR):
		return place.takeFile()
	case errors.Is(err, unix.ENOENT), errors.Is(err, unix.ENOTEMPTY), stays(err):
		return nil
	}
	return place.fails(err)
}

// stays says whether nothing may be taken out at a place, as in a file system that is read only. There a publication is undone once it is unmounted.
func stays(err error) bool {
	return errors.Is(err, unix.EROFS) || errors.Is(err, unix.EPERM) || errors.Is(err, unix.EACCES)
}

func (place *place) takeFile() error {
	var status unix.Stat_t
	if err := unix.Fstatat(place.below(), place.name, &status, unix.AT_SYMLINK_NOFOLLOW); err != nil {
		return place.fails(err)
	}
	if status.Mode&unix.S_IFMT != unix.S_IFREG || status.Size > 0 {
		return nil
	}
	if err := unix.Unlinkat(place.below(), place.name, 0); !stays(err) {
		return place.fails(err)
	}
	return nil
}
