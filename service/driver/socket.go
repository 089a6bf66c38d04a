package driver

import (
	"errors"
	"fmt"
	"net"
	"os"
	"path/filepath"
	"strings"
	"syscall"

	"tufayon/service/secure"
)

// ErrSocket says that the socket can't be made where nobody else gets in.
var ErrSocket = errors.New("the socket")

const schema = "unix://"

// SocketOf gives the path of an endpoint, which CSI writes unix://PATH.
func SocketOf(endpoint string) (string, error) {
	path := strings.TrimPrefix(endpoint, schema)
	if path == endpoint || !filepath.IsAbs(path) {
		return "", fmt.Errorf("%w: an endpoint is %sPATH, with an absolute path", ErrSocket, schema)
	}
	return path, nil
}

// Listen makes a socket of mode 0600 in a folder of mode 0700 of this user's, and makes the folder where it is missing. A socket that an earlier
// process left there goes, unless somebody serves it.
func Listen(path string) (net.Listener, error) {
	if err := guarded(filepath.Dir(path)); err != nil {
		return nil, err
	}
	if secure.IsServed(path) {
		return nil, fmt.Errorf("%w: %s is served by another process", ErrSocket, path)
	}
	if left, err := os.Lstat(path); err == nil && left.Mode()&os.ModeSocket != 0 {
		os.Remove(path)
	}
	listener, err := net.Listen("unix", path)
	if err != nil {
		return nil, fmt.Errorf("%w: %v", ErrSocket, err)
	}
	if err := os.Chmod(path, 0o600); err != nil {
		listener.Close()
		return nil, fmt.Errorf("%w: %v", ErrSocket, err)
	}
	return listener, nil
}

func guarded(folder string) error {
	if err := os.Mkdir(folder, 0o700); err != nil && !errors.Is(err, os.ErrExist) {
		return fmt.Errorf("%w: %v", ErrSocket, err)
	}
	status, err := os.Lstat(folder)
	if err != nil {
		return fmt.Errorf("%w: %v", ErrSocket, err)
	}
	owner, ok := status.Sys().(*syscall.Stat_t)
	if !status.IsDir() || status.Mode().Perm() != 0o700 || !ok || int(owner.Uid) != os.Geteuid() {
		return fmt.Errorf("%w: %s isn't a folder of mode 0700 of this user's", ErrSocket, folder)
	}
	return nil
}
