// Package webtest has a browser for tests: Debian's Chromium without a window, which is told what to do over a pipe.
package webtest

import (
	"bufio"
	"encoding/base64"
	"encoding/json"
	"errors"
	"fmt"
	"os"
	"os/exec"
	"sync"
	"syscall"
	"testing"
	"time"
)

// Programs are the names under which the browser may be there.
var Programs = []string{"chromium-headless-shell", "chromium"}

const within = 30 * time.Second // what a browser answers

// A Browser shows one page.
type Browser struct {
	t       testing.TB
	to      *os.File
	session string

	mutex   sync.Mutex
	last    int
	answers map[int]chan answer
	faults  []string // of the page's scripts
}

type answer struct {
	ID     int             `json:"id"`
	Method string          `json:"method"`
	Params json.RawMessage `json:"params"`
	Result json.RawMessage `json:"result"`
	Error  *struct {
		Message string `json:"message"`
	} `json:"error"`
}

// Start starts a browser, until the test ends. Where none is there, the test is skipped, and says so.
func Start(t testing.TB) *Browser {
	t.Helper()
	program := ""
	for at := len(Programs) - 1; at >= 0; at-- {
		if found, err := exec.LookPath(Programs[at]); err == nil {
			program = found
		}
	}
	if program == "" {
		t.Skip("left out, since there is no Chromium: chromium-headless-shell, or chromium")
	}
	made := &Browser{t: t, answers: map[int]chan answer{}}
	toIt, to, err := os.Pipe()
	if err != nil {
		t.Fatal(err)
	}
	from, fromIt, err := os.Pipe()
	if err != nil {
		t.Fatal(err)
	}
	command := exec.Command(program, "--headless", "--remote-debugging-pipe", "--no-sandbox", "--disable-gpu", "--disable-dev-shm-usage", "--hide-scrollbars",
		"--no-first-run", "--disable-background-networking", "--disable-component-update", "--user-data-dir="+t.TempDir(), "about:blank")
	command.ExtraFiles = []*os.File{toIt, fromIt} // 3 and 4
	command.SysProcAttr = &syscall.SysProcAttr{Setpgid: true}
	command.Env = append(os.Environ(), "HOME="+t.TempDir())
	if err := command.Start(); err != nil {
		t.Fatal(err)
	}
	toIt.Close()
	fromIt.Close()
	made.to = to
	go made.hear(from)
	t.Cleanup(func() {
		to.Close()
		syscall.Kill(-command.Process.Pid, syscall.SIGKILL)
		command.Wait()
		from.Close()
		time.Sleep(100 * time.Millisecond) // until nobody writes into its folders
	})
	made.attach()
	return made
}

// hear takes what the browser says: texts of JSON, with a 0 behind each.
func (made *Browser) hear(from *os.File) {
	reader := bufio.NewReader(from)
	for {
		text, err := reader.ReadBytes(0)
		if err != nil {
			return
		}
		var said answer
		if json.Unmarshal(text[:len(text)-1], &said) != nil {
			continue
		}
		made.mutex.Lock()
		if it := made.answers[said.ID]; it != nil {
			delete(made.answers, said.ID)
			it <- said
		}
		if said.Method == "Runtime.exceptionThrown" || said.Method == "Log.entryAdded" {
			made.faults = append(made.faults, string(said.Params))
		}
		made.mutex.Unlock()
	}
}

// Call has the browser do something, by Chrome's DevTools Protocol.
func (made *Browser) Call(method string, params map[string]any) (json.RawMessage, error) {
	made.mutex.Lock()
	made.last++
	id, came := made.last, make(chan answer, 1)
	made.answers[id] = came
	message := map[string]any{"id": id, "method": method, "params": params}
	if made.session != "" {
		message["sessionId"] = made.session
	}
	text, err := json.Marshal(message)
	if err == nil {
		_, err = made.to.Write(append(text, 0))
	}
	made.mutex.Unlock()
	if err != nil {
		return nil, err
	}
	select {
	case said := <-came:
		if said.Error != nil {
			return nil, fmt.Errorf("%s: %s", method, said.Error.Message)
		}
		return said.Result, nil
	case <-time.After(within):
		return nil, fmt.Errorf("%s: no answer", method)
	}
}

func (made *Browser) must(method string, params map[string]any) json.RawMessage {
	made.t.Helper()
	result, err := made.Call(method, params)
	if err != nil {
		made.t.Fatal(err)
	}
	return result
}

// attach opens the session of a new page.
func (made *Browser) attach() {
	made.t.Helper()
	var target struct{ TargetID string }
	json.Unmarshal(made.must("Target.createTarget", map[string]any{"url": "about:blank"}), &target)
	var attached struct{ SessionID string }
	json.Unmarshal(made.must("Target.attachToTarget", map[string]any{"targetId": target.TargetID, "flatten": true}), &attached)
	made.session = attached.SessionID
	for _, it := range []string{"Page.enable", "Runtime.enable", "Log.enable"} {
		made.must(it, nil)
	}
}

// A Screen is how a page is looked at.
type Screen struct {
	Width, Height int
	IsMobile      bool
	IsDark        bool
}

// Look has the page be looked at on a screen.
func (made *Browser) Look(screen Screen) {
	made.t.Helper()
	scale, scheme := 1, "light"
	if screen.IsMobile {
		scale = 2
	}
	if screen.IsDark {
		scheme = "dark"
	}
	made.must("Emulation.setDeviceMetricsOverride", map[string]any{
		"width": screen.Width, "height": screen.Height, "deviceScaleFactor": scale, "mobile": screen.IsMobile,
	})
	made.must("Emulation.setEmulatedMedia", map[string]any{"features": []map[string]string{{"name": "prefers-color-scheme", "value": scheme}}})
}

// Open opens a page.
func (made *Browser) Open(url string) {
	made.t.Helper()
	made.must("Page.navigate", map[string]any{"url": url})
}

// Ask evaluates an expression of the page, and reads its value.
func (made *Browser) Ask(expression string, into any) error {
	result, err := made.Call("Runtime.evaluate", map[string]any{"expression": expression, "returnByValue": true, "awaitPromise": true})
	if err != nil {
		return err
	}
	var evaluated struct {
		Result struct {
			Value json.RawMessage
		}
		ExceptionDetails json.RawMessage
	}
	if err := json.Unmarshal(result, &evaluated); err != nil {
		return err
	}
	if len(evaluated.ExceptionDetails) > 0 {
		return errors.New(string(evaluated.ExceptionDetails))
	}
	if into == nil {
		return nil
	}
	return json.Unmarshal(evaluated.Result.Value, into)
}

// Press presses a key, as ArrowDown.
func (made *Browser) Press(key string) {
	made.t.Helper()
	for _, it := range []string{"keyDown", "keyUp"} {
		params := map[string]any{"type": it, "key": key, "code": key}
		if code := map[string]int{"Enter": 13, "Escape": 27, "Tab": 9}[key]; code != 0 {
			params["windowsVirtualKeyCode"] = code
		}
		if len(key) == 1 && it == "keyDown" || key == "Enter" && it == "keyDown" {
			params["text"] = map[bool]string{true: "\r", false: key}[key == "Enter"]
		}
		made.must("Input.dispatchKeyEvent", params)
	}
}

// Heard is what a screen reader is told of the page: each role, and each role with a name.
func (made *Browser) Heard() map[string]bool {
	made.t.Helper()
	var tree struct {
		Nodes []struct {
			Ignored    bool
			Role, Name struct{ Value any }
		}
	}
	if err := json.Unmarshal(made.must("Accessibility.getFullAXTree", nil), &tree); err != nil {
		made.t.Fatal(err)
	}
	heard := map[string]bool{}
	for _, it := range tree.Nodes {
		if !it.Ignored {
			heard[fmt.Sprint(it.Role.Value)] = true
			heard[fmt.Sprint(it.Role.Value, " ", it.Name.Value)] = true
		}
	}
	return heard
}

// Picture writes what is seen into a file, as PNG.
func (made *Browser) Picture(file string) {
	made.t.Helper()
	var taken struct{ Data string }
	json.Unmarshal(made.must("Page.captureScreenshot", map[string]any{"format": "png"}), &taken)
	bytes, err := base64.StdEncoding.DecodeString(taken.Data)
	if err == nil {
		err = os.WriteFile(file, bytes, 0o644)
	}
	if err != nil {
		made.t.Fatal(err)
	}
}

// Faults are those of the page's scripts so far, and what the browser refused to load.
func (made *Browser) Faults() []string {
	made.mutex.Lock()
	defer made.mutex.Unlock()
	return append([]string(nil), made.faults...)
}
