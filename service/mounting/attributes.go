package mounting

import (
	"os"

	"golang.org/x/sys/unix"

	"tufayon/service/hooks"
)

// attributes are those of a mount that are put in and taken out. All others stay as they are.
type attributes struct {
	in, out uint64
}

// attributesOf are those that a publication asks for, by its mount flags, of which a bind mount can have these (mount(8)), and by its readonly.
func attributesOf(deed hooks.Deed) (attributes, error) {
	wanted := attributes{}
	if deed.Readonly {
		wanted.in = unix.MOUNT_ATTR_RDONLY
	}
	for _, flag := range deed.Private.MountFlags {
		switch flag {
		case "ro":
			wanted.in |= unix.MOUNT_ATTR_RDONLY
		case "rw": // what a mount is by itself
		case "nosuid":
			wanted.in |= unix.MOUNT_ATTR_NOSUID
		case "nodev":
			wanted.in |= unix.MOUNT_ATTR_NODEV
		case "noexec":
			wanted.in |= unix.MOUNT_ATTR_NOEXEC
		case "nodiratime":
			wanted.in |= unix.MOUNT_ATTR_NODIRATIME
		case "noatime":
			wanted.in, wanted.out = wanted.in|unix.MOUNT_ATTR_NOATIME, unix.MOUNT_ATTR__ATIME
		default:
			return attributes{}, hooks.ErrFlags
		}
	}
	return wanted, nil
}

// set sees to the attributes of the mount whose root a file is.
func (wanted attributes) set(file *os.File) error {
	if wanted == (attributes{}) {
		return nil
	}
	return unix.MountSetattr(int(file.Fd()), "", unix.AT_EMPTY_PATH, &unix.MountAttr{Attr_set: wanted.in, Attr_clr: wanted.out})
}

// bind mounts a directory at another one. The mount has its attributes before anybody sees it, and those of the directory's own mount besides.
func (wanted attributes) bind(directory, target *os.File) error {
	descriptor, err := unix.OpenTree(int(directory.Fd()), "", unix.OPEN_TREE_CLONE|unix.OPEN_TREE_CLOEXEC|unix.AT_EMPTY_PATH)
	if err != nil {
		return err
	}
	tree := os.NewFile(uintptr(descriptor), "mount")
	defer tree.Close()
	if err := wanted.set(tree); err != nil {
		return err
	}
	return unix.MoveMount(descriptor, "", int(target.Fd()), "", unix.MOVE_MOUNT_F_EMPTY_PATH|unix.MOVE_MOUNT_T_EMPTY_PATH)
}
