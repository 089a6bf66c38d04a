// Package mounting publishes volumes by bind mounts, where no command does it: docs/DRIVER.md, "Mounts".
package mounting

import (
	"context"
	"errors"
	"fmt"
	"io/fs"
	"os"
	"sync"

	"golang.org/x/sys/unix"

	"tufayon/service/hooks"
)

// ErrOther says that something else than the volume is mounted at its target.
var ErrOther = errors.New("something else is mounted there")

// Mounts makes a directory where a volume is staged, and mounts that at its targets. It formats and attaches nothing, and so can't publish a block
// device. The directory in which a path's last name stands has to be there, as CSI has it.
type Mounts struct{}

// Judge refuses what bind mounts can't do.
func (Mounts) Judge(deed hooks.Deed) error {
	if deed.Capability == nil || deed.Call != "NodeStageVolume" && deed.Call != "NodePublishVolume" {
		return nil
	}
	if !deed.Capability.Mount {
		return hooks.ErrBlock
	}
	_, err := attributesOf(deed)
	return err
}

// Do does the deed.
func (Mounts) Do(_ context.Context, deed hooks.Deed) (hooks.Answer, error) {
	switch deed.Call {
	case "NodeStageVolume":
		return hooks.Answer{}, stage(deed)
	case "NodePublishVolume":
		return hooks.Answer{}, publish(deed)
	case "NodeUnpublishVolume":
		return hooks.Answer{}, unpublish(deed)
	}
	return hooks.Answer{}, nil // an empty directory is left to whoever chose its path
}

func stage(deed hooks.Deed) error {
	if !deed.Capability.Mount {
		return hooks.ErrBlock
	}
	staged, err := openPlace(deed.Staging)
	if err != nil {
		return err
	}
	defer staged.close()
	if _, err := staged.make(); err != nil {
		return err
	}
	directory, err := staged.open(unix.O_PATH | unix.O_DIRECTORY)
	if err != nil {
		return err
	}
	return directory.Close()
}

// A staged is the directory in which a volume is staged.
type staged struct {
	directory *os.File
	source    source
}

func openStaged(path string) (*staged, error) {
	whole, err := clean(path)
	if err != nil {
		return nil, err
	}
	directory, err := openDirectory(whole)
	if err != nil {
		return nil, err
	}
	shows, err := sourceAt(directory, whole)
	if err != nil {
		directory.Close()
		return nil, fmt.Errorf("%s: %w", whole, err)
	}
	return &staged{directory: directory, source: shows}, nil
}

func (volume *staged) close() { volume.directory.Close() }

// publish mounts the volume at its target. Where it is mounted there already, it only sees to the flags; where anything else is, it changes nothing.
func publish(deed hooks.Deed) error {
	if !deed.Capability.Mount {
		return hooks.ErrBlock
	}
	wanted, err := attributesOf(deed)
	if err != nil {
		return err
	}
	volume, err := openStaged(deed.Staging)
	if err != nil {
		return err
	}
	defer volume.close()
	target, err := openPlace(deed.Target)
	if err != nil {
		return err
	}
	defer target.close()
	made, err := target.make()
	if err != nil {
		return err
	}
	if err := publishAt(target, volume, wanted); err != nil {
		if made {
			unix.Unlinkat(target.below(), target.name, unix.AT_REMOVEDIR) // nothing else can be done about it
		}
		return err
	}
	return nil
}

// placing has one mount made at a time at a place: of two the second would be made above the first, though nothing was there when it was looked at. Others are
// held up by nothing that hangs there.
var placing = struct {
	mutex sync.Mutex
	at    map[string]chan struct{} // by its path, closed once it is left
}{at: map[string]chan struct{}{}}

// placed waits until nobody makes a mount at a path, and has that so until what it gives is called.
func placed(path string) (leave func()) {
	for {
		placing.mutex.Lock()
		other, isTaken := placing.at[path]
		if !isTaken {
			mine := make(chan struct{})
			placing.at[path] = mine
			placing.mutex.Unlock()
			return func() {
				placing.mutex.Lock()
				delete(placing.at, path)
				placing.mutex.Unlock()
				close(mine)
			}
		}
		placing.mutex.Unlock()
		<-other
	}
}

func publishAt(target *place, volume *staged, wanted attributes) error {
	defer placed(target.path)()
	directory, err := target.open(unix.O_PATH | unix.O_DIRECTORY)
	if err != nil {
		return err
	}
	defer directory.Close()
	isMounted, err := target.isMounted(directory)
	if err != nil {
		return err
	}
	if isMounted {
		if err := target.shows(directory, volume.source); err != nil {
			return err
		}
		return target.fails(wanted.set(directory))
	}
	isEmpty, err := target.isEmpty()
	if err != nil {
		return err
	}
	if !isEmpty {
		return target.fails(errors.New("the directory isn't empty"))
	}
	return target.fails(wanted.bind(volume.directory, directory))
}

// isMounted says whether something is mounted at the place, of which this is what was opened there.
func (place *place) isMounted(file *os.File) (bool, error) {
	outside, err := mountOf(place.directory)
	if err != nil {
		return false, place.fails(err)
	}
	inside, err := mountOf(file)
	return inside != outside, place.fails(err)
}

// shows fails unless the mount at the place, of which this is what was opened there, is of the source.
func (place *place) shows(file *os.File, wanted source) error {
	id, err := mountOf(file)
	if err != nil {
		return place.fails(err)
	}
	there, err := mountWith(id)
	if err != nil {
		return place.fails(err)
	}
	if there.source != wanted {
		return place.fails(ErrOther)
	}
	return nil
}

// unpublish undoes a publication: unmounts the volume, if it is mounted at the target, and takes out the empty directory. What else is there stays.
func unpublish(deed hooks.Deed) error {
	target, err := openPlace(deed.Target)
	if errors.Is(err, fs.ErrNotExist) {
		return hidden(deed.Target, deed.Staging) // else the directory of the target is gone, and so is what was in it
	}
	if err != nil {
		return unreached(deed.Target, deed.Staging, err)
	}
	defer target.close()
	for {
		isVolume, isOther, err := target.has(deed.Staging)
		switch {
		case err != nil || isOther:
			return err
		case !isVolume:
			if err := hidden(target.path, deed.Staging); err != nil {
				return err
			}
			return target.take()
		}
		// Of the directory that was opened, since a link may stand in the path by now.
		point := fmt.Sprintf("/proc/self/fd/%d/%s", target.below(), target.name)
		if err := unix.Unmount(point, unix.UMOUNT_NOFOLLOW); err != nil {
			return target.fails(err)
		}
	}
}

// hidden fails where the volume is mounted at a path that doesn't lead there, since something else was mounted above a directory on the way.
func hidden(path, staging string) error {
	whole, err := clean(path)
	if err != nil {
		return err
	}
	found, err := mounts(func(it mount) bool { return it.point == whole })
	if err != nil || len(found) == 0 {
		return err
	}
	volume, err := openStaged(staging)
	if err != nil {
		return fmt.Errorf("what is mounted at %s, and hidden, can't be compared with the volume: %w", whole, err)
	}
	defer volume.close()
	for _, it := range found {
		if it.source == volume.source {
			return fmt.Errorf("%s: the volume is mounted there, and hidden: %w", whole, ErrOther)
		}
	}
	return nil
}

// unreached is what becomes of undoing a publication at a target that isn't reached, as one behind a link, where nothing can have been published either: it is
// done, unless the volume is mounted anywhere else than where it is staged, since what is a link by now may have been a directory then.
func unreached(target, staging string, why error) error {
	if !hooks.IsAbsolute(target) {
		return why
	}
	volume, err := openStaged(staging)
	if err != nil {
		return why
	}
	defer volume.close()
	whole, err := clean(staging)
	if err != nil {
		return why
	}
	found, err := mounts(func(it mount) bool { return it.source == volume.source && it.point != whole })
	if err != nil || len(found) > 0 {
		return why
	}
	return nil
}

// has says whether the volume that is staged at a path is mounted at the place, or something else is. It fails where the volume is mounted there and
// something else above it. What it opens it closes: what is open can't be unmounted.
func (place *place) has(staging string) (isVolume, isOther bool, err error) {
	there, err := place.open(unix.O_PATH)
	if errors.Is(err, fs.ErrNotExist) {
		return false, false, nil
	}
	if err != nil {
		return false, true, unreached(place.path, staging, err)
	}
	defer there.Close()
	isMounted, err := place.isMounted(there)
	if err != nil || !isMounted {
		return false, false, err
	}
	volume, err := openStaged(staging)
	if err != nil {
		return false, false, fmt.Errorf("what is mounted at %s can't be compared with the volume: %w", place.path, err)
	}
	defer volume.close()
	shown := place.shows(there, volume.source)
	if shown == nil || !errors.Is(shown, ErrOther) {
		return shown == nil, false, shown
	}
	covered, err := mounts(func(it mount) bool { return it.point == place.path && it.source == volume.source })
	if err == nil && len(covered) > 0 {
		err = shown
	}
	return false, true, place.fails(err)
}
