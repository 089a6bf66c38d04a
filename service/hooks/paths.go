package hooks

import "strings"

// IsAbsolute says whether a path is absolute and has no `..`.
func IsAbsolute(path string) bool { return strings.HasPrefix(path, "/") && !HasParent(path) }

// HasParent says whether a path has `..`, which leads elsewhere than it seems to after a symbolic link.
func HasParent(path string) bool {
	for _, name := range strings.Split(path, "/") {
		if name == ".." {
			return true
		}
	}
	return false
}
