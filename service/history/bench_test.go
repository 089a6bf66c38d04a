package history

import (
	"path/filepath"
	"testing"
	"time"

	"go.uber.org/zap"

	"tufayon/service/frames"
	"tufayon/service/host"
	"tufayon/service/records"
)

// BenchmarkKeep has a reply kept, in a file: what that costs beside the service.
func BenchmarkKeep(b *testing.B) {
	made, err := Open(filepath.Join(b.TempDir(), "history"), Usual, zap.NewNop())
	if err != nil {
		b.Fatal(err)
	}
	defer made.Close()
	row := &records.Row{
		Wanted: records.Wanted{Name: "v", Required: 10, Capabilities: []frames.Capability{block}}, ID: 1, Exists: records.Yes,
		At: []records.At{{Node: "n1", Capability: block, Attached: records.Yes, Staged: records.Yes, Targets: []records.Target{{Path: "/srv/v", Published: records.Yes}}}},
	}
	made.rows["v"] = row
	call := frames.Call{Number: frames.Number{Session: 1, Call: 7}, Node: "n1", Body: frames.NodePublishVolume{ID: 1}}
	batches := [][]host.Happening{{{What: host.Replied, Time: time.Now(), Session: 1, Name: "v", Before: row, Row: row, Call: call, Sent: &call}}}
	b.ReportAllocs()
	b.ResetTimer()
	for at := 0; at < b.N; at++ {
		made.keep(batches)
	}
}
