package secure

import (
	"context"
	"errors"
	"fmt"
	"net"
	"os"
	"path/filepath"
	"strings"
	"syscall"

	"google.golang.org/grpc"
)

// Listen makes a Unix socket that every user may connect to: the kernel says who does, and Local refuses those who may not. A socket that an earlier
// process left there goes, unless somebody serves it. The folder is made where it is missing.
func Listen(path string) (net.Listener, error) {
	if err := os.MkdirAll(filepath.Dir(path), 0o755); err != nil {
		return nil, err
	}
	if IsServed(path) {
		return nil, fmt.Errorf("%s is served by another process", path)
	}
	if left, err := os.Lstat(path); err == nil && left.Mode()&os.ModeSocket != 0 {
		os.Remove(path)
	}
	listener, err := net.Listen("unix", path)
	if err != nil {
		return nil, err
	}
	if err := os.Chmod(path, 0o666); err != nil {
		listener.Close()
		return nil, err
	}
	return listener, nil
}

// IsServed says whether a process serves a Unix socket: also one that hangs, where so many wait to be let in that no more may.
func IsServed(path string) bool {
	other, err := net.Dial("unix", path)
	if err == nil {
		other.Close()
	}
	return err == nil || errors.Is(err, syscall.EAGAIN)
}

// atSocket is what the address of a Unix socket begins with; its path follows as it is.
const atSocket = "unix://"

// ToSocket are the options by which a client reaches a Unix socket: gRPC by itself takes %, ? and # in its path for a URL's, and asks the proxy that the
// environment has for it. Of any other address there are none.
func ToSocket(address string) []grpc.DialOption {
	if !strings.HasPrefix(address, atSocket) {
		return nil
	}
	return []grpc.DialOption{grpc.WithContextDialer(func(ctx context.Context, address string) (net.Conn, error) {
		return (&net.Dialer{}).DialContext(ctx, "unix", strings.TrimPrefix(address, atSocket))
	})}
}
