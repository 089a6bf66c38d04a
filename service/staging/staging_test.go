package staging

import (
	"reflect"
	"testing"

	"tufayon/service/store"
)

func TestPaths(t *testing.T) {
	paths := New(map[uint64]string{1: "/a", 2: "/b"})
	if paths.Of(1) != "/a" || paths.Of(3) != "" {
		t.Errorf("volume 1 has %q, and 3 has %q", paths.Of(1), paths.Of(3))
	}
	if note := paths.Put(3, "/c"); note != (store.Note{Volume: 3, Path: "/c"}) || paths.Of(3) != "/c" {
		t.Errorf("the note is %v", note)
	}
	for _, volume := range []uint64{3, 2, 2, 9, 1} {
		paths.Take(volume)
	}
	paths.Put(1, "/d")
	if late := paths.Late(); !reflect.DeepEqual(late, []store.Note{{Volume: 2, Out: true}, {Volume: 3, Out: true}}) {
		t.Errorf("late are %v", late)
	}
	if late := paths.Late(); len(late) != 0 || paths.Of(1) != "/d" || paths.Of(2) != "" {
		t.Errorf("late are %v", late)
	}
}
