package settings

import (
	"context"
	"fmt"
	"net"
	"path/filepath"
	"regexp"
	"sort"
	"strconv"
	"strings"
	"time"

	"tufayon/service/api"
	"tufayon/service/carrying"
	"tufayon/service/daemon"
	"tufayon/service/frames"
	"tufayon/service/history"
	"tufayon/service/hooks"
	"tufayon/service/secure"
	"tufayon/service/store"
	"tufayon/service/web"
)

// setName is what a set may be called: a label of a domain, since it stands where a URI has its host.
var setName = regexp.MustCompile(`^[a-z0-9]([-a-z0-9]{0,61}[a-z0-9])?$`)

const (
	mostNodes    = 64
	mostSlots    = 4096
	mostGreatest = 1<<63 - 1
	mostSocket   = 107       // bytes of the path of a socket (unix(7))
	mostStaging  = 4096 - 21 // bytes of the staging folder's path: a staging path has 4,096, and in that a slash and a volume's id
)

// checking gathers faults, each with its place.
type checking struct {
	file   string
	faults Faults
}

func (it *checking) refuse(place, why string, values ...any) {
	it.faults = append(it.faults, it.file+": "+place+": "+fmt.Sprintf(why, values...))
}

// faults are those of the two files in themselves.
func (settings *Settings) faults() Faults {
	set := &checking{file: settings.Process.Set}
	settings.Set.check(set)
	process := &checking{file: settings.File}
	settings.Process.check(process)
	settings.checkOwn(process)
	return append(append(set.faults, process.faults...), settings.Process.open(settings.File, settings.addresses())...)
}

// checkOwn judges whether what has to be this process's own is something else's too: where it serves a plugin's address, or its history a file of its store.
func (settings *Settings) checkOwn(to *checking) {
	process, plugins := &settings.Process, settings.Set.places()
	for _, it := range []struct{ place, address string }{{"listen", process.Listen}, {"watch", process.Watch}} {
		if plugin, isPlugins := plugins[it.address]; isPlugins && it.address != "" {
			to.refuse(it.place, "%q is that of %s in %s too", it.address, plugin, process.Place.Set)
		}
	}
	if process.Store == "" || process.History == "" {
		return
	}
	for _, it := range store.Files(filepath.Clean(process.Store)) {
		for _, its := range history.Files(filepath.Clean(process.History)) {
			if its == it {
				to.refuse("history", "%q is a file of the store", its)
			}
		}
	}
}

// places are those of the plugins' addresses, by these.
func (set *Set) places() map[string]string {
	places := map[string]string{set.Controller: "controller"}
	for at, it := range set.Controllers {
		places[it] = fmt.Sprintf("controllers[%d]", at)
	}
	for at, it := range set.Nodes {
		places[it.Address] = fmt.Sprintf("nodes[%d].address", at)
	}
	return places
}

// open are the addresses, by their places, at which a process without certificates would speak with whoever is there.
func (place *Place) open(file string, addresses map[string]string) Faults {
	var faults Faults
	for at, address := range addresses {
		if _, _, err := net.SplitHostPort(address); err == nil && !place.IsTLS() && !carrying.IsLocal(address) {
			faults = append(faults, fmt.Sprintf("%s: over TCP there have to be a certificate, its key and authorities in %s", at, file))
		}
	}
	sort.Strings(faults)
	return faults
}

// addresses are all addresses, by their places.
func (settings *Settings) addresses() map[string]string {
	addresses := map[string]string{settings.File + ": listen": settings.Process.Listen}
	if settings.Process.Address != settings.Process.Listen {
		addresses[settings.File+": address"] = settings.Process.Address
	}
	if settings.Set.Controller != "" {
		addresses[settings.Process.Set+": controller"] = settings.Set.Controller
	}
	for at, it := range settings.Set.Controllers {
		addresses[fmt.Sprintf("%s: controllers[%d]", settings.Process.Set, at)] = it
	}
	for at, it := range settings.Set.Nodes {
		addresses[fmt.Sprintf("%s: nodes[%d].address", settings.Process.Set, at)] = it.Address
	}
	return addresses
}

func (set *Set) check(to *checking) {
	if !setName.MatchString(set.Name) {
		to.refuse("set", "%q is no name of a set: small letters, digits, and dashes between them", set.Name)
	}
	if set.Greatest < 1 || set.Greatest > mostGreatest {
		to.refuse("greatest", "%d isn't from 1 to %d", set.Greatest, uint64(mostGreatest))
	}
	if !filepath.IsAbs(set.Staging) {
		to.refuse("staging", "%q is no absolute path", set.Staging)
	} else if hooks.HasParent(set.Staging) || len(set.Staging) > mostStaging || strings.ContainsRune(set.Staging, 0) {
		to.refuse("staging", "%q has .., a byte 0, or more than %d bytes: a node refuses each path in it", set.Staging, mostStaging)
	}
	if len(set.Nodes) > mostNodes {
		to.refuse("nodes", "%d are more than %d", len(set.Nodes), mostNodes)
	}
	ids, addresses := map[string]int{}, set.checkControllers(to)
	for at, it := range set.Nodes {
		place := fmt.Sprintf("nodes[%d]", at)
		if it.ID == "" || len(it.ID) > frames.MaxNode || strings.ContainsRune(it.ID, 0) {
			to.refuse(place+".id", "%q isn't of 1 to %d bytes", it.ID, frames.MaxNode)
		}
		if other, isThere := ids[it.ID]; isThere {
			to.refuse(place+".id", "%q is that of nodes[%d] too", it.ID, other)
		}
		if it.Slots > mostSlots {
			to.refuse(place+".slots", "%d are more than %d", it.Slots, mostSlots)
		}
		if other, isThere := addresses[it.Address]; isThere {
			to.refuse(place+".address", "%q is that of %s too", it.Address, other)
		}
		checkPlugin(to, place+".address", it.Address)
		ids[it.ID], addresses[it.Address] = at, place
	}
	set.Times.check(to)
}

// checkControllers gives the places of the controllers' addresses, by these.
func (set *Set) checkControllers(to *checking) map[string]string {
	if (set.Controller == "") == (len(set.Controllers) == 0) {
		to.refuse("controller", "either it is there, or controllers")
	}
	places := map[string]string{}
	if set.Controller != "" {
		checkPlugin(to, "controller", set.Controller)
		places[set.Controller] = "controller"
	}
	for at, it := range set.Controllers {
		place := fmt.Sprintf("controllers[%d]", at)
		checkPlugin(to, place, it)
		if other, isThere := places[it]; isThere {
			to.refuse(place, "%q is that of %s too", it, other)
		}
		if carrying.IsLocal(it) != carrying.IsLocal(set.Controllers[0]) {
			to.refuse(place, "they are all at Unix sockets, or none")
		}
		places[it] = place
	}
	return places
}

func (times Times) check(to *checking) {
	to.seconds("times.answer", times.Answer)
	to.seconds("times.retry", times.Retry)
	if times.MostRetry < times.Retry {
		to.refuse("times.most_retry", "%v is below times.retry, %v", times.MostRetry, times.Retry)
	} else if times.Retry > 0 {
		to.seconds("times.most_retry", times.MostRetry)
	}
	if times.Patience < times.Answer {
		to.refuse("times.patience", "%v is below times.answer, %v: a use would be undone while its first call may be answered", times.Patience, times.Answer)
	} else if times.Answer > 0 {
		to.seconds("times.patience", times.Patience)
	}
}

// seconds judges how many seconds a time has.
func (it *checking) seconds(place string, count float64) {
	switch {
	case count <= 0:
		it.refuse(place, "%v isn't above 0", count)
	case count > MostSeconds:
		it.refuse(place, "%v is above %v", count, float64(MostSeconds))
	}
}

func (place *Place) check(to *checking) {
	if (place.Store == "") == (place.Etcd == nil) {
		to.refuse("store", "either this file is there, or etcd")
	}
	if etcd := place.Etcd; etcd != nil {
		etcd.check(to)
	}
	checkAddress(to, "listen", place.Listen)
	if place.IsTLS() && (place.Certificate == "" || place.Key == "" || place.Authorities == "") {
		to.refuse("certificate", "certificate, key and authorities are there together, or none of them")
	}
	place.checkWatch(to)
}

// checkWatch checks where and how much is told. Beyond this machine metrics are told only to who is known.
func (place *Place) checkWatch(to *checking) {
	if place.Watch != "" {
		checkAddress(to, "watch", place.Watch)
		if place.Watch == place.Listen {
			to.refuse("watch", "%q is that of listen too", place.Watch)
		}
		if !carrying.IsLocal(place.Watch) && !web.IsLoopback(place.Watch) && !place.IsTLS() {
			to.refuse("watch", "%q isn't on loopback: there has to be a certificate", place.Watch)
		}
	}
	if place.Log != "" && !daemon.IsLevel(place.Log) {
		to.refuse("log", "%q is none of %s", place.Log, strings.Join(daemon.Levels, ", "))
	}
}

func (process *Process) check(to *checking) {
	process.Place.check(to)
	if process.Etcd != nil { // others tell it to their callers
		checkAddress(to, "address", process.Address)
	}
	if process.Calls.Controller < 1 {
		to.refuse("calls.controller", "%d isn't above 0", process.Calls.Controller)
	}
	if process.Calls.Node < 1 {
		to.refuse("calls.node", "%d isn't above 0", process.Calls.Node)
	}
	if process.Calls.Caller < 1 {
		to.refuse("calls.caller", "%d isn't above 0", process.Calls.Caller)
	}
	for name, role := range process.Clients {
		if _, isOne := api.ParseRole(role); !isOne || name == "" {
			to.refuse("clients."+name, "%q is no role: read, operate or lose", role)
		}
	}
	for user, role := range process.Users {
		if _, err := strconv.ParseUint(user, 10, 32); err != nil {
			to.refuse("users."+user, "it is no user's number")
		}
		if _, isOne := api.ParseRole(role); !isOne {
			to.refuse("users."+user, "%q is no role: read, operate or lose", role)
		}
	}
}

func (etcd *Etcd) check(to *checking) {
	if len(etcd.Endpoints) == 0 {
		to.refuse("etcd.endpoints", "there are none")
	}
	for at, it := range etcd.Endpoints {
		if why := secure.EndpointFault(it, etcd.Certificate != ""); why != "" {
			to.refuse(fmt.Sprintf("etcd.endpoints[%d]", at), "%q %s", it, why)
		}
	}
	if etcd.Prefix == "" {
		to.refuse("etcd.prefix", "it is missing")
	}
	if all := etcd.CA != "" && etcd.Certificate != "" && etcd.Key != ""; !all && etcd.CA+etcd.Certificate+etcd.Key != "" {
		to.refuse("etcd.certificate", "ca, certificate and key are there together, or none of them")
	}
	if etcd.Lease < 1 {
		to.refuse("etcd.lease", "%d isn't above 0", etcd.Lease)
	}
}

// checkPlugin judges a plugin's address: with a comma in it, it would be taken for those of several.
func checkPlugin(to *checking, place, address string) {
	if strings.Contains(address, ",") {
		to.refuse(place, "%q has a comma, and isn't one address", address)
		return
	}
	checkAddress(to, place, address)
}

func checkAddress(to *checking, place, address string) {
	if carrying.IsLocal(address) {
		path := strings.TrimPrefix(address, "unix://")
		if !filepath.IsAbs(path) {
			to.refuse(place, "%q has no absolute path", address)
		} else if len(path) > mostSocket {
			to.refuse(place, "%q has a path of more than %d bytes", address, mostSocket)
		}
		return
	}
	host, port, err := net.SplitHostPort(address)
	if number, bad := strconv.ParseUint(port, 10, 16); err != nil || bad != nil || number == 0 || host == "" && place != "listen" {
		to.refuse(place, "%q is neither unix://PATH nor HOST:PORT", address)
	}
}

// Name is this process's in its certificate.
func (settings *Settings) Name() secure.Name {
	return secure.Name{Set: settings.Set.Name, Role: secure.Orchestrator}
}

// Roles are those of clients and users. Where the file lists no users, root and the process's own may do all.
func (settings *Settings) Roles(own int) (clients map[string]api.Role, users map[uint32]api.Role) {
	clients, users = map[string]api.Role{}, map[uint32]api.Role{}
	for name, role := range settings.Process.Clients {
		clients[name], _ = api.ParseRole(role)
	}
	if settings.Process.Users == nil {
		users[0], users[uint32(own)] = api.Loses, api.Loses
	}
	for user, role := range settings.Process.Users {
		number, _ := strconv.ParseUint(user, 10, 32)
		users[uint32(number)], _ = api.ParseRole(role)
	}
	return clients, users
}

// Addresses are the plugins', by their names: of several controllers all, with commas between.
func (set *Set) Addresses() map[string]string {
	addresses := map[string]string{carrying.Controller: set.Controller}
	if set.Controller == "" {
		addresses[carrying.Controller] = strings.Join(set.Controllers, ",")
	}
	for _, it := range set.Nodes {
		addresses[carrying.NodeName(it.ID)] = it.Address
	}
	return addresses
}

// Check checks what is outside of the files: that addresses of machines can be looked up, and that the certificate names this process and is valid. It
// tells until when that is, if there is one.
func (settings *Settings) Check(ctx context.Context) (until time.Time, err error) {
	until, err = settings.Own()
	return until, joined(settings.LookUp(ctx), err)
}

// Own is the part of Check that is this process's: its certificates.
func (settings *Settings) Own() (until time.Time, err error) {
	return settings.Process.own(settings.File, settings.Name())
}

// LookUp is the part of Check that others may mend at any time: the addresses, which are looked up at once. They are told by their places.
func (settings *Settings) LookUp(ctx context.Context) Faults {
	return lookUp(ctx, settings.addresses())
}

const lookUpWithin = 5 * time.Second

// lookUp tells which of these addresses, by their places, can't be looked up.
func lookUp(ctx context.Context, addresses map[string]string) Faults {
	ctx, cancel := context.WithTimeout(ctx, lookUpWithin)
	defer cancel()
	looked := make(chan error, len(addresses))
	for place, address := range addresses {
		go func(place, address string) {
			host, _, err := net.SplitHostPort(address)
			if carrying.IsLocal(address) || err != nil || host == "" {
				looked <- nil
				return
			}
			if _, err = net.DefaultResolver.LookupHost(ctx, host); err != nil {
				err = fmt.Errorf("%s: %w", place, err)
			}
			looked <- err
		}(place, address)
	}
	var faults Faults
	for range addresses {
		if err := <-looked; err != nil {
			faults = append(faults, err.Error())
		}
	}
	sort.Strings(faults)
	return faults
}

// own checks the certificates of a process of this name.
func (place *Place) own(file string, name secure.Name) (until time.Time, err error) {
	var faults Faults
	if files := place.Files(); files != nil {
		if until, err = files.Check(name); err != nil {
			faults = append(faults, fmt.Sprintf("%s: certificate: %v", file, err))
		}
	}
	if files := place.EtcdFiles(); files != nil {
		if _, err := files.CheckOwn(); err != nil {
			faults = append(faults, fmt.Sprintf("%s: etcd.certificate: %v", file, err))
		}
	}
	if len(faults) > 0 {
		return time.Time{}, faults
	}
	return until, nil
}

// joined are faults and those of an error, if there are any.
func joined(faults Faults, err error) error {
	if more, is := err.(Faults); is {
		faults = append(faults, more...)
	}
	if len(faults) == 0 {
		return nil
	}
	sort.Strings(faults)
	return faults
}
