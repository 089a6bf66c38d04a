package web_test

import (
	"fmt"
	"os"
	"path/filepath"
	"testing"
	"time"

	"tufayon/service/carrying"
	"tufayon/service/host"
	"tufayon/service/web/webtest"
)

// Pictures of the page, to be looked at: TUFAYON_TEST_PICTURES is the folder.
func TestPictures(t *testing.T) {
	folder := os.Getenv("TUFAYON_TEST_PICTURES")
	if folder == "" {
		t.Skip("nobody looks")
	}
	browser := webtest.Start(t)
	made := newScene(t, 12)
	paint(made)
	for name, screen := range map[string]webtest.Screen{
		"desktop": {Width: 1440, Height: 900}, "desktop-dark": {Width: 1440, Height: 900, IsDark: true}, "laptop": {Width: 1100, Height: 760},
		"phone": {Width: 390, Height: 844, IsMobile: true}, "phone-dark": {Width: 390, Height: 844, IsMobile: true, IsDark: true},
	} {
		browser.Look(screen)
		browser.Open("http://" + made.address + "/")
		made.soon("the page is there", made.same(browser))
		time.Sleep(1500 * time.Millisecond)
		browser.Picture(filepath.Join(folder, "page-"+name+".png"))
		if screen.IsMobile {
			for _, tab := range []string{"plugins", "events"} {
				browser.Ask(`tab('`+tab+`')`, nil)
				time.Sleep(300 * time.Millisecond)
				browser.Picture(filepath.Join(folder, "page-"+name+"-"+tab+".png"))
			}
			browser.Ask(`tab('volumes')`, nil)
		}
		browser.Ask(`show('mail-spool')`, nil)
		time.Sleep(2 * time.Second)
		browser.Picture(filepath.Join(folder, "volume-"+name+".png"))
	}
}

// paint has a service look as it may on some day.
func paint(made *scene) {
	made.Helper()
	names := []string{"mail-spool", "db-main", "db-replica", "web-assets", "build-cache", "logs-2026-11", "photos", "wiki", "ci-runner-1", "ci-runner-2", "scratch", "backup-daily"}
	for at := 0; at < 140; at++ {
		name := names[at%len(names)]
		if at >= len(names) {
			name = fmt.Sprintf("%s-%d", name, at/len(names)+1)
		}
		made.does(create(name))
		if at%7 != 5 && name != "db-replica" {
			made.does(use(name, made.nodes[at%len(made.nodes)], "/srv/"+name))
		}
	}
	made.does(use("web-assets", "n2", "/srv/assets"))
	made.does(use("web-assets", "n9", "/srv/assets"))
	made.does(use("web-assets", "n9", "/var/www/assets"))
	made.hold(carrying.NodeName("n7"), true, fmt.Errorf("%w: TRANSIENT_FAILURE", carrying.ErrNotReached))
	made.hold(carrying.NodeName("n3"), true, nil)
	later := func(command host.Command) { command.AtRest = false; made.does(command) }
	later(host.Command{Kind: host.Stop, Name: "mail-spool", Node: "n1", Target: "/srv/mail-spool"})
	made.present().AtRest(ctx, "mail-spool")
	later(use("mail-spool", "n7", "/srv/mail"))
	later(use("db-replica", "n3", "/srv/replica"))
	later(host.Command{Kind: host.Stop, Name: "photos", Node: "n7", Target: "/srv/photos"})
	made.does(host.Command{Kind: host.Stop, Name: "scratch", Node: "n11", Target: "/srv/scratch", AtRest: true})
	made.does(host.Command{Kind: host.Delete, Name: "scratch", AtRest: true})
	time.Sleep(3 * time.Second)
}
