package history

import (
	"fmt"
	"os"
	"path/filepath"
	"reflect"
	"strings"
	"testing"
	"time"

	"go.uber.org/zap"

	"tufayon/service/frames"
	"tufayon/service/host"
	"tufayon/service/records"
)

// Entries that are packed, and the base behind those that went, say what they said before, in memory and in a file that is read again; and so do those that
// were left out of schedules.
func TestPacked(t *testing.T) {
	const most, names = 100, 7
	path := filepath.Join(t.TempDir(), "history")
	made, err := Open(path, most, zap.NewNop())
	if err != nil {
		t.Fatal(err)
	}
	row := func(name string, at int) *records.Row {
		return &records.Row{Wanted: records.Wanted{Name: name, Required: uint64(at), Capabilities: []frames.Capability{block}}, ID: 1, Exists: records.Yes}
	}
	rows := map[string]*records.Row{}
	made.keep([][]host.Happening{{{What: host.Began, Time: time.UnixMilli(1), Session: 1, Why: "it starts", Nodes: []string{"n1"}}}})
	var want []Entry
	for at := 0; at < 1000; at++ {
		it := host.Happening{What: host.TimedOut, Time: time.UnixMilli(int64(at)), Session: 1, Name: fmt.Sprint("v", at%names)}
		it.Before = rows[it.Name]
		rows[it.Name] = row(it.Name, at)
		it.Row = rows[it.Name]
		made.keep([][]host.Happening{{it}})
		var entry Entry
		made.plugins.keepIn(&entry, &it)
		want = append(want, entry)
	}
	check := func(what string, made *History) {
		t.Helper()
		last, count, _ := made.Last("", 2*most, 0)
		if !reflect.DeepEqual(last, want[len(want)-most:]) || count != 1001 {
			t.Errorf("%s: of %d, the last are %+v", what, count, last)
		}
		if last, _, _ = made.Last("", 5, 1001-30); len(last) != 5 || !reflect.DeepEqual(last[4], want[999]) {
			t.Errorf("%s: the last five are %+v", what, last)
		}
		if last, _, _ = made.Last("v3", 2, 0); len(last) != 2 || last[0].Name != "v3" || last[1].Name != "v3" || last[0].Time != last[1].Time-names {
			t.Errorf("%s: the last two of one are %+v", what, last)
		}
		base := made.settled()
		for name := 0; name < names; name++ {
			its := fmt.Sprint("v", name)
			for at := len(want) - most - 1; ; at-- {
				if want[at].Name == its {
					if !reflect.DeepEqual(base.Rows[its], want[at].Row) {
						t.Errorf("%s: before the first, %s is %+v, not %+v", what, its, base.Rows[its], want[at].Row)
					}
					break
				}
			}
		}
	}
	check("in memory", made)
	made.cut(map[string]*records.Row{"v3": nil})
	for at := range want {
		want[at].IsCut = want[at].Name == "v3"
	}
	if last, _, _ := made.Last("", 2*most, 0); !reflect.DeepEqual(last, want[len(want)-most:]) || made.settled().Rows["v3"] != nil {
		t.Errorf("one left out: %+v", last)
	}
	made.save()
	if err := made.Close(); err != nil {
		t.Fatal(err)
	}
	again, err := Open(path, most, zap.NewNop())
	if err != nil {
		t.Fatal(err)
	}
	defer again.Close()
	if last, count, _ := again.Last("", 2*most, 0); !reflect.DeepEqual(last, want[len(want)-most:]) || count != 1001 {
		t.Errorf("read again: of %d, %+v", count, last)
	}
}

// What is kept is bounded by bytes too, in memory and in the file, since a volume that is in use at many places has large lines; and it says what it said.
func TestLarge(t *testing.T) {
	defer func(before int) { mostBytes = before }(mostBytes)
	mostBytes = 256 << 10
	path := filepath.Join(t.TempDir(), "history")
	made, err := Open(path, 1000, zap.NewNop())
	if err != nil {
		t.Fatal(err)
	}
	const count = 200
	var last *records.Row
	made.keep([][]host.Happening{{{What: host.Began, Session: 1, Why: "it starts"}}})
	for at := 0; at < count; at++ {
		row := &records.Row{Wanted: records.Wanted{Name: "v", Required: uint64(at)}}
		for node := 0; node < 32; node++ {
			row.At = append(row.At, records.At{Node: fmt.Sprint("n", node, strings.Repeat("-", 200))})
		}
		made.keep([][]host.Happening{{{What: host.TimedOut, Session: 1, Name: "v", Before: last, Row: row}}})
		last = row
	}
	check := func(what string, made *History) {
		t.Helper()
		kept, _ := made.Count()
		size := 0
		for _, it := range made.packs {
			size += cap(it.lines)
		}
		if all := len(made.all("")); kept != all || kept < 20 || kept > 40 || len(made.entries) > kept || size > 2*mostBytes {
			t.Errorf("%s: %d events are kept, %d and %d, in %d bytes", what, kept, all, len(made.entries), size)
		}
		if file, err := os.Stat(path); err != nil || file.Size() > int64(3*mostBytes) {
			t.Errorf("%s: the file has %d bytes, %v", what, file.Size(), err)
		}
		if before := made.settled().Rows["v"]; before == nil || before.Required != uint64(count-kept-1) {
			t.Errorf("%s: before the first it is %+v", what, before)
		}
		if all, _, _ := made.Last("v", count, 0); len(all) != kept || all[kept-1].Row.Required != count-1 {
			t.Errorf("%s: the last ones are %d", what, len(all))
		}
	}
	check("in memory", made)
	if err := made.Close(); err != nil {
		t.Fatal(err)
	}
	again, err := Open(path, 1000, zap.NewNop())
	if err != nil {
		t.Fatal(err)
	}
	defer again.Close()
	check("read again", again)
}

// Who asks for volumes that never were, by ever other names, leaves nothing behind once that isn't kept any more.
func TestNobodys(t *testing.T) {
	const most = 50
	made, err := Open("", most, zap.NewNop())
	if err != nil {
		t.Fatal(err)
	}
	defer made.Close()
	for at := 0; at < 20*most; at++ {
		name := fmt.Sprint("x", at)
		made.keep([][]host.Happening{{{What: host.Commanded, Name: name, Command: host.Command{Kind: host.Delete, Name: name}, Refusal: 2}}})
	}
	if left := len(made.late) + len(made.base.Rows) + len(made.rows); left > most {
		t.Errorf("something is left of %d names", left)
	}
}
