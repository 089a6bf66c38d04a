// Package staging knows where each volume is staged, which isn't in a plugin's record, and which notes of that are to be changed.
package staging

import (
	"sort"

	"tufayon/service/store"
)

// Paths has the path of each volume that is staged. It isn't for several goroutines at once.
type Paths struct {
	kept map[uint64]string
	late map[uint64]bool // those whose note is to be taken out: where it isn't, the next start does it
}

// New begins with what the notes have.
func New(kept map[uint64]string) *Paths { return &Paths{kept: kept, late: map[uint64]bool{}} }

// Of gives a volume's path, or none.
func (paths *Paths) Of(volume uint64) string { return paths.kept[volume] }

// Put keeps a volume's path, and gives the note that is to be committed before the volume's row is.
func (paths *Paths) Put(volume uint64, path string) store.Note {
	paths.kept[volume] = path
	delete(paths.late, volume)
	return store.Note{Volume: volume, Path: path}
}

// Take forgets a volume's path: its note is taken out with the next ones, or at the next start, since the volume isn't staged by then.
func (paths *Paths) Take(volume uint64) {
	if _, there := paths.kept[volume]; there {
		delete(paths.kept, volume)
		paths.late[volume] = true
	}
}

// Late gives the notes that are to be taken out, by rising id, and counts them as taken out.
func (paths *Paths) Late() []store.Note {
	notes := make([]store.Note, 0, len(paths.late))
	for volume := range paths.late {
		notes = append(notes, store.Note{Volume: volume, Out: true})
	}
	sort.Slice(notes, func(i, j int) bool { return notes[i].Volume < notes[j].Volume })
	paths.late = map[uint64]bool{}
	return notes
}
