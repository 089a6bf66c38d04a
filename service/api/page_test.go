package api

import (
	"fmt"
	"strings"
	"testing"

	"github.com/golang/protobuf/proto"

	"tufayon/service/carrying"
	"tufayon/service/host"
	"tufayon/service/records"
)

// mounted is plugins at which all is mounted.
type mounted struct{}

func (mounted) States() map[string]carrying.State { return nil }
func (mounted) Unmounted(string, uint64) string   { return "" }

// Volumes at their limits, each at 64 nodes and at 16 targets of 255 bytes at each of them, come in pages that clients take, each volume once, in order.
func TestPage(t *testing.T) {
	var volumes []host.Volume
	for at := 0; at < 20; at++ {
		row := &records.Row{Wanted: records.Wanted{Name: fmt.Sprintf("v%02d", at)}}
		for node := 0; node < 64; node++ {
			its := records.At{Node: fmt.Sprintf("n%d", node)}
			for target := 0; target < 16; target++ {
				its.Targets = append(its.Targets, records.Target{Path: fmt.Sprintf("/%02d%s", target, strings.Repeat("t", 252))})
			}
			row.At = append(row.At, its)
		}
		volumes = append(volumes, host.Volume{Row: row})
	}
	server, listed := &Server{plugins: mounted{}}, 0
	for pages := 0; ; pages++ {
		page := server.page(volumes[listed:], false)
		if size := proto.Size(page); size > 4<<20 {
			t.Fatalf("a page of %d bytes", size)
		}
		for _, volume := range page.Volumes {
			if volume.Name != volumes[listed].Name {
				t.Fatalf("%s, not %s", volume.Name, volumes[listed].Name)
			}
			listed++
		}
		if page.Next == "" {
			if listed != len(volumes) || pages == 0 {
				t.Errorf("%d volumes on %d pages", listed, pages+1)
			}
			return
		}
		if page.Next != volumes[listed-1].Name {
			t.Fatalf("the next page is behind %s, not %s", page.Next, volumes[listed-1].Name)
		}
	}
}

// Few volumes have a page of their own, and none has an empty one.
func TestFewVolumes(t *testing.T) {
	server := &Server{plugins: mounted{}}
	if page := server.page(nil, false); len(page.Volumes) > 0 || page.Next != "" {
		t.Errorf("of no volumes: %v", page)
	}
	row := &records.Row{Wanted: records.Wanted{Name: "v"}}
	if page := server.page([]host.Volume{{Row: row}}, true); len(page.Volumes) != 1 || page.Next != "v" {
		t.Errorf("of one of several: %v", page)
	}
}
