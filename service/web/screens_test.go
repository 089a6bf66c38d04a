package web_test

import (
	"fmt"
	"os"
	"strings"
	"testing"

	"tufayon/service/carrying"
	"tufayon/service/host"
	"tufayon/service/web/webtest"
)

// faint are the texts that stand out from what is behind them by less than WCAG 2.1 asks of any text, 4.5 (1.4.3), with how much they do. What can't be used
// now is exempt there.
const faint = `(() => {
	const light = ([r, g, b]) => { const of = c => (c /= 255) <= 0.03928 ? c / 12.92 : ((c + 0.055) / 1.055) ** 2.4; return 0.2126 * of(r) + 0.7152 * of(g) + 0.0722 * of(b) }
	const color = text => text.match(/[\d.]+/g).map(Number)
	const behind = it => { for (; it; it = it.parentElement) { const back = color(getComputedStyle(it).backgroundColor); if (back.length === 3 || back[3] === 1) return back } return [255, 255, 255] }
	const found = {}
	for (const it of document.querySelectorAll('body *')) {
		const own = [...it.childNodes].some(child => child.nodeType === 3 && child.textContent.trim()), box = it.getBoundingClientRect()
		if (!own || box.width < 2 || it.closest('dialog:not([open]), [hidden], noscript, option, :disabled') || box.right < 0) continue
		const [one, other] = [light(color(getComputedStyle(it).color)), light(behind(it))]
		const ratio = (Math.max(one, other) + 0.05) / (Math.min(one, other) + 0.05)
		if (ratio < 4.5) found[it.tagName + '.' + it.className + ' ' + it.textContent.slice(0, 20)] = ratio.toFixed(2)
	}
	return found
})()`

// seen are the parts of the page that are seen.
const seen = `[...document.querySelectorAll('main > section')].filter(it => it.checkVisibility ? it.checkVisibility() : it.offsetParent).map(it => it.id).sort().join(' ')`

// On a phone and on a large screen, by day and in the dark, all can be read, nothing is wider than the screen, and nothing comes from elsewhere; a click shows
// what a volume waits for, and where csi-replay is there a picture of what happened to it.
func TestScreens(t *testing.T) {
	browser := webtest.Start(t)
	made := newScene(t, 3)
	made.does(create("at-rest"))
	made.does(use("at-rest", "n1", "/srv/at-rest"))
	made.does(create("v"))
	made.hold(carrying.NodeName("n2"), true, nil)
	made.hold(carrying.NodeName("n3"), true, fmt.Errorf("%w: TRANSIENT_FAILURE", carrying.ErrNotReached))
	wants := host.Command{Kind: host.Use, Name: "v", Node: "n2", Target: "/srv/v", Capability: block}
	made.does(wants)
	for _, screen := range []webtest.Screen{
		{Width: 1440, Height: 900}, {Width: 1440, Height: 900, IsDark: true}, {Width: 1024, Height: 768},
		{Width: 390, Height: 844, IsMobile: true}, {Width: 390, Height: 844, IsMobile: true, IsDark: true}, {Width: 320, Height: 568, IsMobile: true},
	} {
		browser.Look(screen)
		browser.Open("http://" + made.address + "/")
		made.soon("the page is there", made.same(browser))
		made.soon("the volume's row", func() error {
			return says(browser, `[...document.querySelectorAll('.row')].map(it => it.dataset.name)[0] || ''`, "v")
		})
		parts := []string{"events plugins volumes"}
		if screen.Width < 768 {
			parts = []string{"events", "plugins", "volumes"}
		}
		for _, part := range parts {
			if len(parts) > 1 {
				browser.Ask(fmt.Sprintf(`document.querySelector('nav button[data-tab=%q]').click()`, part), nil)
			}
			made.soon(fmt.Sprintf("%+v: what is seen", screen), func() error { return says(browser, seen, part) })
			made.readable(browser, screen)
		}
		made.soon("a click shows what it waits for", func() error {
			browser.Ask(`document.querySelector('.row[data-name="v"]').click()`, nil)
			return holds(browser, `document.getElementById('volume').open && document.getElementById('volume-waits').textContent`,
				"use at n2 /srv/v", "node:n2 has to answer NodeStageVolume")
		})
		made.soon("and where it is", func() error { return holds(browser, `document.getElementById('volume-at').textContent`, "n2yes") })
		if os.Getenv("TUFAYON_TEST_PROGRAM") != "" {
			made.soon("a picture of it", func() error {
				return says(browser, `String(!document.getElementById('picture').hidden && document.getElementById('picture-image').naturalWidth > 100)`, "true")
			})
		}
		made.readable(browser, screen)
	}
	var elsewhere []string
	if err := browser.Ask(`performance.getEntriesByType('resource').map(it => it.name).filter(it => !it.startsWith(location.origin + '/'))`, &elsewhere); err != nil || len(elsewhere) > 0 {
		t.Errorf("it loads %v, %v", elsewhere, err)
	}
	if faults := browser.Faults(); len(faults) > 0 {
		t.Error(faults)
	}
}

// readable wants all that is seen to be readable, and nothing wider than the screen.
func (made *scene) readable(browser *webtest.Browser, screen webtest.Screen) {
	made.Helper()
	var found map[string]string
	if err := browser.Ask(faint, &found); err != nil || len(found) > 0 {
		made.Errorf("%+v: these are faint: %v, %v", screen, found, err)
	}
	var width int
	if err := browser.Ask(`document.documentElement.scrollWidth`, &width); err != nil || width > screen.Width {
		made.Errorf("%+v: the page is %d wide, %v", screen, width, err)
	}
}

// holds wants a text of the page to have these in it.
func holds(browser *webtest.Browser, expression string, parts ...string) error {
	var said string
	if err := browser.Ask("String("+expression+")", &said); err != nil {
		return err
	}
	for _, part := range parts {
		if !strings.Contains(said, part) {
			return fmt.Errorf("it says %q, without %q", said, part)
		}
	}
	return nil
}
