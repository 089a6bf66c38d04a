package history

import (
	"encoding/json"

	"tufayon/service/host"
	"tufayon/service/records"
)

const (
	mostFresh = 200 // of the last entries are kept as they came too, at least, if there are so many; and are packed together
	mostPacks = 16  // a pack has no more than one in so many of the bytes that may be kept, and a line
)

// A pack has entries as they are written, in a few large pieces: as structs, so many would be gone through by each collection of garbage.
type pack struct {
	lines, names []byte
	marks        []mark
	whole        map[int]*Entry // sessions and losses, which say something of many volumes, by their places
	first        int            // the place of the first entry that is still kept
	written      int            // so many bytes of lines the file has
}

// A mark says where an entry's line and name end, and what else is known of it without reading it.
type mark struct {
	line, name uint32
	size       uint32 // of its line, wherever that is
	isCut      bool
	hasRow     bool // the volume has a row then
}

func (it *pack) line(at int) []byte {
	if at == 0 {
		return it.lines[:it.marks[0].line]
	}
	return it.lines[it.marks[at-1].line:it.marks[at].line]
}

func (it *pack) name(at int) []byte {
	if at == 0 {
		return it.names[:it.marks[0].name]
	}
	return it.names[it.marks[at-1].name:it.marks[at].name]
}

// concerns says whether an entry is of a volume, or of none; all are of the empty name.
func (it *pack) concerns(at int, name string) bool {
	its := it.name(at)
	return name == "" || len(its) == 0 || string(its) == name
}

// entry is an entry again.
func (it *pack) entry(at int) Entry {
	if whole := it.whole[at]; whole != nil {
		return *whole
	}
	entry := read(it.line(at))
	entry.IsCut = it.marks[at].isCut
	return entry
}

// read reads a line that this process wrote.
func read(line []byte) (entry Entry) {
	_ = json.Unmarshal(line, &entry)
	return entry
}

// cut leaves the entries of volumes out of schedules.
func (it *pack) cut(begin map[string]*records.Row) {
	for at := it.first; at < len(it.marks); at++ {
		if _, isCut := begin[string(it.name(at))]; isCut {
			it.marks[at].isCut = true
		}
	}
	for _, entry := range it.whole {
		for name := range begin {
			delete(entry.Rows, name)
		}
	}
}

// appendTo appends the lines of a file that the entries have.
func (it *pack) appendTo(to []byte) []byte {
	for at := it.first; at < len(it.marks); at++ {
		switch whole := it.whole[at]; {
		case whole != nil:
			to = appendLine(to, whole)
		default:
			to = appendMarked(to, it.line(at), it.marks[at].isCut)
		}
	}
	return to
}

// appendMarked appends an entry's line, with a remark where it is left out of schedules.
func appendMarked(to, line []byte, isCut bool) []byte {
	if !isCut {
		return append(to, line...)
	}
	return append(append(to, line[:len(line)-len("}\n")]...), ",\"cut\":true}\n"...)
}

func (entry *Entry) isWhole() bool { return entry.What == session || entry.What == lose }

// A recent is one of the last entries, which are packed too: what happened, of which it is made when it is asked for; or the entry itself, of sessions and
// losses and of what was read.
type recent struct {
	happened *host.Happening
	entry    *Entry
	isCut    bool
}

func (it *recent) name() string {
	if it.entry != nil {
		return it.entry.Name
	}
	return it.happened.Name
}

// concerns says whether it is of a volume, or of none; all are of the empty name.
func (it *recent) concerns(name string) bool {
	return name == "" || it.name() == "" || it.name() == name
}

func (it *recent) isWhole() bool { return it.entry != nil && it.entry.isWhole() }

// made is the entry.
func (it *recent) made(names plugins) (entry Entry) {
	if it.entry != nil {
		entry = *it.entry
	} else {
		names.keepIn(&entry, it.happened)
	}
	entry.IsCut = it.isCut
	return entry
}

// newPack makes one with room for as many entries as are packed together, of which the last one had so many bytes.
func newPack(count, lines, names int) *pack {
	return &pack{marks: make([]mark, 0, count), lines: make([]byte, 0, lines+lines/8), names: make([]byte, 0, names+names/8)}
}

// hasRow says whether the volume has a row then.
func (it *recent) hasRow() bool {
	if it.entry != nil {
		return it.entry.Row != nil
	}
	return it.happened.Row != nil
}

// add takes in an entry whose line is there, of so many bytes, and lets the oldest go where there are too many, or too large ones.
func (made *History) add(it recent, size int) {
	last := made.last
	if it.isWhole() {
		if last.whole == nil {
			last.whole = map[int]*Entry{}
		}
		last.whole[len(last.marks)] = it.entry
	}
	last.names = append(last.names, it.name()...)
	last.marks = append(last.marks, mark{
		line: uint32(len(last.lines)), name: uint32(len(last.names)), size: uint32(size), isCut: it.isCut, hasRow: it.hasRow(),
	})
	made.count++
	made.size += size
	if made.file != nil {
		made.file.lines++
		made.file.size += size
	}
	made.entries = append(made.entries, it)
	if len(made.entries) >= 2*made.fresh {
		made.leave(made.fresh)
	}
	if len(last.marks) == made.fresh || len(last.lines) > mostBytes/mostPacks {
		if made.file != nil {
			made.file.writeOf(last)
		}
		made.last = newPack(made.fresh, len(last.lines), len(last.names))
		made.packs = append(made.packs, made.last)
	}
	for made.count > made.most || made.size > mostBytes && made.count > 1 {
		made.drop()
	}
}

// leave leaves so many of the last entries.
func (made *History) leave(count int) {
	left := copy(made.entries, made.entries[len(made.entries)-count:])
	for at := left; at < len(made.entries); at++ {
		made.entries[at] = recent{}
	}
	made.entries = made.entries[:left]
}

// beginsWith says of what the oldest entry is: nothing of one of a volume.
func (made *History) beginsWith() string {
	if oldest := made.packs[0].whole[made.packs[0].first]; oldest != nil {
		return oldest.What
	}
	return ""
}

// drop lets the oldest entry go, which is packed: the base has what it says. Of a volume that is its line, which is read once somebody asks for the base.
func (made *History) drop() {
	it := made.packs[0]
	at := it.first
	it.first++
	made.count--
	made.size -= int(it.marks[at].size)
	switch whole := it.whole[at]; {
	case whole != nil:
		for name := range whole.Rows {
			delete(made.late, name)
		}
		made.learn(whole, made.base.Rows)
		made.base.Config, made.base.Nodes = whole.Config, whole.Nodes
		delete(it.whole, at)
	case it.marks[at].isCut || len(it.name(at)) == 0:
	case !it.marks[at].hasRow: // as after a refusal of a name that never was: nothing is left of it
		delete(made.late, string(it.name(at)))
		delete(made.base.Rows, string(it.name(at)))
	default:
		kept := made.late[string(it.name(at))]
		if kept == nil {
			kept = new([]byte)
			made.late[string(it.name(at))] = kept
		}
		*kept = append((*kept)[:0], it.line(at)...)
	}
	if it.first == len(it.marks) {
		made.packs = append([]*pack(nil), made.packs[1:]...)
	}
	made.before++
	if len(made.entries) > made.count {
		made.leave(made.count)
	}
}

// settled is the base, with all that it has lines of.
func (made *History) settled() base {
	for name, line := range made.late {
		entry := read(*line)
		made.base.Rows[name] = entry.Row
		if entry.Row == nil {
			delete(made.base.Rows, name)
		}
		delete(made.late, name)
	}
	return made.base
}

// all are the entries of a volume and of none, or all of the empty name, in their order.
func (made *History) all(name string) []Entry {
	var all []Entry
	if name == "" {
		all = make([]Entry, 0, made.count)
	}
	left := made.count - len(made.entries)
	for _, it := range made.packs {
		for at := it.first; at < len(it.marks) && left > 0; at++ {
			left--
			if it.concerns(at, name) {
				all = append(all, it.entry(at))
			}
		}
	}
	for at := range made.entries {
		if it := &made.entries[at]; it.concerns(name) {
			all = append(all, it.made(made.plugins))
		}
	}
	return all
}

// backwards are the last entries of a volume and of none, or of all, at most so many, among the last `of`: the last one first.
func (made *History) backwards(name string, most, of int) (last []Entry) {
	for at := len(made.entries) - 1; at >= 0 && of > 0 && len(last) < most; at-- {
		of--
		if it := &made.entries[at]; it.concerns(name) {
			last = append(last, it.made(made.plugins))
		}
	}
	taken := len(made.entries)
	for place := len(made.packs) - 1; place >= 0; place-- {
		it := made.packs[place]
		for at := len(it.marks) - 1; at >= it.first && of > 0 && len(last) < most; at-- {
			if taken > 0 {
				taken--
				continue
			}
			of--
			if it.concerns(at, name) {
				last = append(last, it.entry(at))
			}
		}
	}
	return last
}
