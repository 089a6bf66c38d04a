package settings_test

import (
	"context"
	"errors"
	"os"
	"path/filepath"
	"strings"
	"testing"
	"time"

	"tufayon/service/api"
	"tufayon/service/secure"
	"tufayon/service/secure/securetest"
	"tufayon/service/settings"
)

const (
	set = `{"set": "s1", "greatest": 1000, "controller": "unix:///run/c.sock", "staging": "/staging",
 "nodes": [{"id": "n1", "slots": 3, "address": "unix:///run/n1.sock"}, {"id": "n2", "slots": 4, "address": "unix:///run/n2.sock"}]}`
	process = `{"set": "set.json", "store": "orchestrator.db", "listen": "unix:///run/o.sock"}`
)

// write writes both files, and gives that of the process.
func write(t *testing.T, set, process string) string {
	t.Helper()
	folder := t.TempDir()
	for name, text := range map[string]string{"set.json": set, "process.json": process} {
		if err := os.WriteFile(filepath.Join(folder, name), []byte(text), 0o600); err != nil {
			t.Fatal(err)
		}
	}
	return filepath.Join(folder, "process.json")
}

func TestRead(t *testing.T) {
	file := write(t, set, process)
	read, err := settings.Read(file)
	if err != nil {
		t.Fatal(err)
	}
	if config := string(read.Set.Config()); config != `{"greatest":1000,"nodes":[{"id":"n1","slots":3},{"id":"n2","slots":4}]}`+"\n" {
		t.Errorf("CONFIG is %s", config)
	}
	if read.Process.History != read.Process.Store+".history" {
		t.Errorf("the history is %s", read.Process.History)
	}
	if read.Process.Store != filepath.Join(filepath.Dir(file), "orchestrator.db") || read.Set.Times.Patience != 300 || read.Process.Calls.Node != 32 {
		t.Errorf("%+v", read)
	}
	if addresses := read.Set.Addresses(); len(addresses) != 3 || addresses["node:n2"] != "unix:///run/n2.sock" || addresses["controller"] != "unix:///run/c.sock" {
		t.Errorf("%v", addresses)
	}
	if _, users := read.Roles(7); len(users) != 2 || users[7] != api.Loses || users[0] != api.Loses {
		t.Errorf("%v", users)
	}
	if until, err := read.Check(context.Background()); err != nil || !until.IsZero() {
		t.Errorf("until %v, %v", until, err)
	}
}

// Each fault is told with its place.
func TestFaults(t *testing.T) {
	for _, it := range []struct {
		set, process string
		want         []string
	}{
		{set, `{`, []string{"process.json:1: unexpected EOF"}},
		{set, process + "{}", []string{"process.json:1: something stands behind the object"}},
		{set, `{"set": "set.json", "stor": ""}`, []string{`process.json:1: json: unknown field "stor"`}},
		{set, "{\"set\": \"set.json\",\n \"store\": 3}", []string{"process.json:2: store: a number where there has to be a string"}},
		{set, `{"set": "other.json"}`, []string{"other.json: no such file"}},
		{set, `{}`, []string{"process.json: set: "}},
		{`{"nodes": [{"slots": -1}]}`, process, []string{"set.json:1: nodes.slots: a number -1 where"}},
		{`{"times": {"patience": 1, "retry": 0, "most_retry": 1}}`, process, []string{
			"set.json: set: ", "set.json: greatest: 0 ", "set.json: staging: ", "set.json: controller: either it", "set.json: times.retry: 0", "set.json: times.patience: 1 is below",
		}},
		{strings.Replace(set, "{", `{"times": {"patience": 1e11, "answer": 1e10, "retry": 1, "most_retry": 1e10}, `, 1), process, []string{
			"set.json: times.answer: 1e+10 is above 1e+09", "set.json: times.most_retry: 1e+10 is above 1e+09", "set.json: times.patience: 1e+11 is above 1e+09",
		}},
		{strings.Replace(set, `"/staging"`, `"/a/../staging"`, 1), process, []string{`set.json: staging: "/a/../staging" has ..`}},
		{strings.Replace(set, `"/staging"`, `"/`+strings.Repeat("s", 4075)+`"`, 1), process, []string{"more than 4075 bytes"}},
		{strings.Replace(set, `"/staging"`, `"/a\u0000b"`, 1), process, []string{`set.json: staging: "/a\x00b" has .., a byte 0`}},
		{strings.Replace(set, `"n2"`, `"n1"`, 1), process, []string{`set.json: nodes[1].id: "n1" is that of nodes[0] too`}},
		{strings.Replace(set, `/run/n2`, `/run/n1`, 1), process, []string{`set.json: nodes[1].address: "unix:///run/n1.sock" is that of nodes[0] too`}},
		{strings.Replace(set, `unix:///run/n2.sock`, `unix://n2.sock`, 1), process, []string{"set.json: nodes[1].address: \"unix://n2.sock\" has no absolute path"}},
		{strings.Replace(set, `/run/n2.sock`, "/"+strings.Repeat("s", 107), 1), process, []string{"set.json: nodes[1].address: \"unix:///" + strings.Repeat("s", 107) + "\" has a path of more than 107 bytes"}},
		{strings.Replace(set, `unix:///run/n2.sock`, `n2`, 1), process, []string{"set.json: nodes[1].address: \"n2\" is neither"}},
		{strings.Replace(set, `unix:///run/n2.sock`, `n2:7102`, 1), process, []string{"set.json: nodes[1].address: over TCP"}},
		{strings.Replace(set, `"slots": 4`, `"slots": 5000`, 1), process, []string{"set.json: nodes[1].slots: 5000 are more than 4096"}},
		{set, `{"set": "set.json", "store": "o.db", "listen": ":7", "key": "k", "users": {"ann": "read", "7": "king"}, "clients": {"bob": ""}, "calls": {"node": 0, "caller": 0}}`,
			[]string{"certificate: certificate, key", "users.ann: it is no", `users.7: "king" is no role`, `clients.bob: "" is no role`, "calls.node: 0", "calls.caller: 0"}},
		{strings.Replace(set, `"controller": "unix:///run/c.sock"`, `"controllers": ["unix:///run/c.sock", "c:1", "unix:///run/c.sock", "unix:///run/n2.sock"]`, 1), process, []string{
			"set.json: controllers[1]: they are all at Unix sockets, or none", `set.json: controllers[2]: "unix:///run/c.sock" is that of controllers[0] too`,
			`set.json: nodes[1].address: "unix:///run/n2.sock" is that of controllers[3] too`, "set.json: controllers[1]: over TCP",
		}},
		{set, `{"set": "set.json", "listen": ":7101", "etcd": {"endpoints": ["http://127.0.0.1:2379", "http://localhost:2379"], "prefix": "p", "lease": 1}, "certificate": "c", "key": "k", "authorities": "a"}`,
			[]string{`process.json: address: ":7101" is neither`}},
		{set, `{"set": "set.json", "store": "s", "listen": "unix:///o", "watch": "10.0.0.1:9480", "log": "loud"}`, []string{
			`process.json: watch: "10.0.0.1:9480" isn't on loopback`, `process.json: log: "loud" is none of debug, info, warn, error`,
		}},
		{set, `{"set": "set.json", "store": "s", "listen": "unix:///o", "watch": "unix:///o"}`, []string{`process.json: watch: "unix:///o" is that of listen too`}},
		{set, `{"set": "set.json", "store": "s", "listen": "unix:///o", "watch": ":9480", "log": "info warn"}`, []string{`watch: ":9480" is neither`, `isn't on loopback`, `log: "info warn"`}},
		{strings.Replace(set, `/run/c.sock`, `/run/c.sock,unix:///run/d.sock`, 1), process, []string{
			`set.json: controller: "unix:///run/c.sock,unix:///run/d.sock" has a comma, and isn't one address`,
		}},
		{strings.NewReplacer(`"controller": "unix:///run/c.sock"`, `"controllers": ["unix:///c,d"]`, `unix:///run/n2.sock`, `n2,n3:7102`).Replace(set), process, []string{
			`set.json: controllers[0]: "unix:///c,d" has a comma`, `set.json: nodes[1].address: "n2,n3:7102" has a comma`, "set.json: nodes[1].address: over TCP",
		}},
		{set, `{"set": "set.json", "store": "s", "listen": "unix:///run/c.sock", "watch": "unix:///run/n2.sock"}`, []string{
			`process.json: listen: "unix:///run/c.sock" is that of controller in `, `process.json: watch: "unix:///run/n2.sock" is that of nodes[1].address in `,
		}},
		{strings.Replace(set, `"controller": "unix:///run/c.sock"`, `"controllers": ["unix:///c", "unix:///d"]`, 1), `{"set": "set.json", "store": "s", "listen": "unix:///d"}`, []string{
			`process.json: listen: "unix:///d" is that of controllers[1] in `,
		}},
		{set, `{"set": "set.json", "store": "/a/../s", "history": "/b/../s", "listen": "unix:///o"}`, []string{`process.json: history: "/s" is a file of the store`}},
		{set, `{"set": "set.json", "store": "s", "history": "s.beside", "listen": "unix:///o"}`, []string{`/s.beside" is a file of the store`}},
		{set, `{"set": "set.json", "store": "s", "history": "s-wal", "listen": "unix:///o"}`, []string{`/s-wal" is a file of the store`}},
		{set, `{"set": "set.json", "store": "s", "history": "s-shm", "listen": "unix:///o"}`, []string{`/s-shm" is a file of the store`}},
		{set, `{"set": "set.json", "store": "s", "history": "s.beside-wal", "listen": "unix:///o"}`, []string{`/s.beside-wal" is a file of the store`}},
		{set, `{"set": "set.json", "store": "h.new", "history": "h", "listen": "unix:///o"}`, []string{`/h.new" is a file of the store`}}, // as which it is written anew
		{set, `{"set": "set.json", "listen": "unix:///o"}`, []string{"process.json: store: either this file is there, or etcd"}},
		{set, `{"set": "set.json", "listen": "unix:///o", "store": "s", "etcd": {"ca": "ca.pem"}}`, []string{
			"store: either", "etcd.endpoints: there are none", "etcd.prefix: it is missing", "etcd.certificate: ca, certificate and key", "etcd.lease: 0 isn't above 0",
		}},
		{set, `{"set": "set.json", "listen": "unix:///o", "etcd": {"endpoints": ["http://127.0.0.1:1", "http://10.0.0.1:1"], "prefix": "p", "lease": 1}}`, []string{
			`process.json: etcd.endpoints[1]: "http://10.0.0.1:1" isn't on loopback, so a client's certificate is needed`,
		}},
		{set, `{"set": "set.json", "listen": "unix:///o", "etcd": {"endpoints": ["http://10.0.0.1:1"], "prefix": "p", "lease": 1, "ca": "a", "certificate": "c", "key": "k"}}`,
			[]string{`process.json: etcd.endpoints[0]: "http://10.0.0.1:1" isn't spoken to by TLS`}},
	} {
		_, err := settings.Read(write(t, it.set, it.process))
		var faults settings.Faults
		if !errors.As(err, &faults) || len(faults) != len(it.want) {
			t.Errorf("%s %s: %v", it.set, it.process, err)
			continue
		}
		for _, want := range it.want {
			if !strings.Contains(err.Error(), want) {
				t.Errorf("%v doesn't say %s", err, want)
			}
		}
	}
}

// What is outside of the files: the certificate.
func TestCheck(t *testing.T) {
	authority, folder := securetest.NewAuthority(t), t.TempDir()
	files := authority.Issue(t, folder, time.Now().Add(time.Hour), "tufayon://s1/orchestrator")
	text := `{"set": "set.json", "store": "o.db", "listen": "127.0.0.1:7101", "certificate": "` + files.Certificate + `", "key": "` + files.Key +
		`", "authorities": "` + files.Authorities + `", "clients": {"ann": "operate"}}`
	file := write(t, set, text)
	read, err := settings.Read(file)
	if err != nil {
		t.Fatal(err)
	}
	if until, err := read.Check(context.Background()); err != nil || until.IsZero() {
		t.Errorf("until %v, %v", until, err)
	}
	authority.Issue(t, folder, time.Now().Add(time.Hour), "tufayon://s2/orchestrator")
	want := file + ": certificate: " + files.Certificate + ": the peer is of another set: tufayon://s2/orchestrator, not tufayon://s1/orchestrator"
	if _, err := read.Check(context.Background()); err == nil || err.Error() != want {
		t.Errorf("%v, not %s", err, want)
	}
}

// Addresses that can't be looked up are told, each with its place, and so is the certificate; what is this process's own is known without them.
func TestLookUp(t *testing.T) {
	authority, folder := securetest.NewAuthority(t), t.TempDir()
	files := authority.Issue(t, folder, time.Now().Add(time.Hour), "tufayon://s1/orchestrator")
	its := `"certificate": "` + files.Certificate + `", "key": "` + files.Key + `", "authorities": "` + files.Authorities + `"}`
	file := write(t, strings.NewReplacer("unix:///run/c.sock", "127.0.0.1:7002", "unix:///run/n2.sock", "m..2:7003").Replace(set),
		`{"set": "set.json", "store": "o.db", "listen": ":7001", "address": "m..1:7001", `+its)
	read, err := settings.Read(file)
	if err != nil {
		t.Fatal(err)
	}
	unknown := []string{file + ": address: ", read.Process.Place.Set + ": nodes[1].address: "}
	wants := func(faults settings.Faults, places ...string) {
		t.Helper()
		if len(faults) != len(places) {
			t.Fatalf("%v, and not %v", faults, places)
		}
		for at, it := range faults {
			if !strings.HasPrefix(it, places[at]) {
				t.Errorf("%s isn't %s", it, places[at])
			}
		}
	}
	wants(read.LookUp(context.Background()), unknown...)
	if until, err := read.Own(); err != nil || until.IsZero() {
		t.Errorf("its own: until %v, %v", until, err)
	}
	authority.Issue(t, folder, time.Now().Add(-time.Minute), "tufayon://s1/orchestrator")
	if _, err := read.Own(); err == nil || !strings.HasPrefix(err.Error(), file+": certificate: ") {
		t.Errorf("its own, which has ended: %v", err)
	}
	var faults settings.Faults
	if _, err := read.Check(context.Background()); !errors.As(err, &faults) {
		t.Fatal(err)
	}
	wants(faults, unknown[0], file+": certificate: ", unknown[1])
	n1 := authority.Issue(t, t.TempDir(), time.Now().Add(time.Hour), "tufayon://s1/node/n1")
	file = write(t, strings.Replace(set, "unix:///run/n1.sock", "m..1:7003", 1), `{"set": "set.json", "store": "n1.db", "node": "n1", "certificate": "`+
		n1.Certificate+`", "key": "`+n1.Key+`", "authorities": "`+n1.Authorities+`"}`)
	plugin, err := settings.ReadPlugin(file, secure.Node)
	if err != nil {
		t.Fatal(err)
	}
	if until, err := plugin.Own(); err != nil || until.IsZero() {
		t.Errorf("a node's own: until %v, %v", until, err)
	}
	if _, err := plugin.Check(context.Background()); !errors.As(err, &faults) {
		t.Fatal(err)
	}
	wants(faults, file+": listen: ")
}

// A certificate as etcd's client is one of its own, which is checked too.
func TestCheckEtcd(t *testing.T) {
	ours, etcds, folder, theirs := securetest.NewAuthority(t), securetest.NewAuthority(t), t.TempDir(), t.TempDir()
	files := ours.Issue(t, folder, time.Now().Add(time.Hour), "tufayon://s1/orchestrator")
	known := etcds.Issue(t, theirs, time.Now().Add(time.Hour), "tufayon://s1/etcd/orchestrator")
	file := write(t, set, `{"set": "set.json", "listen": "127.0.0.1:7101", "certificate": "`+files.Certificate+`", "key": "`+files.Key+`", "authorities": "`+
		files.Authorities+`", "clients": {"ann": "operate"}, "etcd": {"endpoints": ["https://127.0.0.1:2379"], "prefix": "/p", "lease": 10, "ca": "`+
		known.Authorities+`", "certificate": "`+known.Certificate+`", "key": "`+known.Key+`"}}`)
	read, err := settings.Read(file)
	if err != nil {
		t.Fatal(err)
	}
	if its := read.Process.EtcdFiles(); *its != known {
		t.Errorf("for etcd it has %+v", its)
	}
	if _, err := read.Check(context.Background()); err != nil {
		t.Error(err)
	}
	for want, spoil := range map[string]func(){
		"the certificate isn't valid at this time": func() { etcds.Issue(t, theirs, time.Now().Add(-time.Minute), "tufayon://s1/etcd/orchestrator") },
		"no such file": func() { os.Remove(known.Key) },
	} {
		etcds.Issue(t, theirs, time.Now().Add(time.Hour), "tufayon://s1/etcd/orchestrator")
		spoil()
		if _, err := read.Check(context.Background()); err == nil || !strings.HasPrefix(err.Error(), file+": etcd.certificate: ") || !strings.Contains(err.Error(), want) {
			t.Errorf("%v doesn't say %q", err, want)
		}
	}
}

const node = `{"set": "set.json", "store": "n1.db", "node": "n1", "commands": {"stage": "/bin/stage"}, "users": [7]}`

// The file of a plugin's process: what is left out, and each fault with its place.
func TestReadPlugin(t *testing.T) {
	file := write(t, set, node)
	read, err := settings.ReadPlugin(file, secure.Node)
	if err != nil {
		t.Fatal(err)
	}
	its := read.Plugin
	if its.Listen != "unix:///run/n1.sock" || its.Hooks != settings.Mounts || its.CommandSeconds != 120 || its.Store != filepath.Join(filepath.Dir(file), "n1.db") ||
		read.CertificateName().String() != "tufayon://s1/node/n1" {
		t.Errorf("%+v", read)
	}
	behind := strings.Replace(node, `"commands": {"stage": "/bin/stage"}`, `"upstream": "unix:///u", "numbers": "arrival"`, 1)
	if read, err := settings.ReadPlugin(write(t, set, behind), secure.Node); err != nil || read.Plugin.Hooks != settings.NoHooks {
		t.Errorf("before another driver: %+v, %v", read, err)
	}
	other := its
	other.Users, other.Session, other.Key = []uint32{8}, 3, "k"
	if keys := its.Others(&other); strings.Join(keys, " ") != "key session" {
		t.Errorf("others are %v", keys)
	}
	for _, it := range []struct {
		role    secure.Role
		process string
		want    []string
	}{
		{secure.Node, strings.Replace(node, `"n1",`, `"n3",`, 1), []string{`process.json: node: "n3" isn't listed in`, "process.json: listen: "}},
		{secure.Node, strings.Replace(node, `"store": "n1.db"`, `"etcd": {"endpoints": ["http://127.0.0.1:1"], "prefix": "/p", "lease": 1}`, 1), []string{"etcd: a node's store is a file"}},
		{secure.Node, strings.Replace(node, `"users": [7]`, `"hooks": "some", "max_volumes": -1, "command_seconds": 0, "name": "a_b", "local": "unix://l"`, 1), []string{
			`local: "unix://l" is no`, `name: "a_b" is no name`, "command_seconds: 0 isn't", `hooks: "some" is neither mounts nor none`, "max_volumes: -1 is below 0",
		}},
		{secure.Node, strings.Replace(node, `"stage": "/bin/stage"`, `"attach": "bin"`, 1), []string{"commands.attach: a node has no such deed", `commands.attach: "bin" is no absolute path`}},
		{secure.Node, strings.Replace(node, `"users": [7]`, `"listen": ":7102"`, 1), []string{"process.json: listen: over TCP there have to be"}},
		{secure.Controller, node, []string{"commands.stage: a controller has no such deed", "node: node, session, hooks and max_volumes are a node's"}},
		{secure.Node, strings.Replace(node, `"users": [7]`, `"upstream": "/u", "numbers": "some", "lost": ["n1"], "hooks": "mounts", "listen": "127.0.0.1:1"`, 1), []string{
			`upstream: "/u" is no unix://PATH`, `listen: "127.0.0.1:1" is no Unix socket`, "upstream: with one there are no commands, mounts or max_volumes",
			`numbers: "some" is neither metadata nor arrival`, "lost: it is for numbers by arrival", "adopt: adopt and lost are a controller's", "over TCP there have to be",
		}},
		{secure.Node, strings.Replace(node, `"users": [7]`, `"local": "unix:///`+strings.Repeat("l", 107)+`"`, 1), []string{"process.json: local: "}},
		{secure.Node, strings.Replace(node, `"users": [7]`, `"command_seconds": 1e10`, 1), []string{"process.json: command_seconds: 1e+10 is above 1e+09"}},
		{secure.Node, strings.Replace(node, `"users": [7]`, `"local": "unix:///w", "watch": "unix:///w"`, 1), []string{`process.json: local: "unix:///w" is no unix://PATH`}},
		{secure.Controller, `{"set": "set.json", "store": "c.db", "upstream": "unix:///u", "watch": "unix:///u"}`, []string{`upstream: "unix:///u" is no unix://PATH`}},
		{secure.Controller, `{"set": "set.json", "store": "c.db", "upstream": "unix:///u", "local": "unix:///u"}`, []string{`upstream: "unix:///u" is no unix://PATH`}},
		{secure.Node, strings.Replace(behind, `"users": [7]`, `"session": 5`, 1), []string{"process.json: session: by arrival there is no session of a joining"}},
		{secure.Controller, `{"set": "set.json", "store": "c.db", "adopt": true}`, []string{"upstream: without one there is no numbers, adopt or lost"}},
		{secure.Controller, `{"set": "set.json"}`, []string{"store: either this file is there, or etcd"}},
	} {
		_, err := settings.ReadPlugin(write(t, set, it.process), it.role)
		var faults settings.Faults
		if !errors.As(err, &faults) || len(faults) != len(it.want) {
			t.Errorf("%s: %v", it.process, err)
			continue
		}
		for _, want := range it.want {
			if !strings.Contains(err.Error(), want) {
				t.Errorf("%v doesn't say %s", err, want)
			}
		}
	}
}
