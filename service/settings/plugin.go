package settings

import (
	"context"
	"path/filepath"
	"reflect"
	"regexp"
	"strings"
	"time"

	"tufayon/service/carrying"
	"tufayon/service/secure"
)

// A Plugin is the file of a plugin's process, of the controller or of a node.
type Plugin struct {
	Place
	Local          string            `json:"local"`          // unix://PATH, where root and this process's user are told of its health and Identity
	Users          []uint32          `json:"users"`          // who may call it at a Unix socket, besides root and this process's user
	Name           string            `json:"name"`           // the plugin's, as Identity tells it
	SessionsAbove  uint64            `json:"sessions_above"` // how far a call's session may be above the latest one; 0 for any
	Commands       map[string]string `json:"commands"`       // what does a call's deed, by the deed's name
	CommandSeconds float64           `json:"command_seconds"`
	Node           string            `json:"node"` // of a node, with the next three: its id
	Session        uint64            `json:"session"`
	Hooks          string            `json:"hooks"` // mounts, or none: where there is no command
	MaxVolumes     int64             `json:"max_volumes"`
	Upstream       string            `json:"upstream"` // unix://PATH: the driver behind, in place of commands and hooks. With it:
	Numbers        string            `json:"numbers"`  // metadata, or arrival
	Adopt          bool              `json:"adopt"`    // of a controller, with the next one
	Lost           []string          `json:"lost"`
}

// PluginSettings are both files of a plugin's process.
type PluginSettings struct {
	Set    Set
	Plugin Plugin
	Role   secure.Role // Controller, or Node
	File   string      // of the process
}

// What --hooks and its key say.
const (
	Mounts  = "mounts"
	NoHooks = "none"
)

// UsualName is a plugin's where it is left out.
const UsualName = "csi.tufayon.example"

// UsualAbove is how far a session may be above the latest one where it is left out: that of a recovery is 2^20 above all that were heard of, which a few
// recoveries in a row may be without a plugin that comes new being told of them.
const UsualAbove = 10000000

// Deeds are the names of deeds that a command may do, with CSI's names of their calls.
var Deeds = map[secure.Role]map[string]string{
	secure.Controller: {
		"create": "CreateVolume", "delete": "DeleteVolume", "attach": "ControllerPublishVolume", "detach": "ControllerUnpublishVolume",
	},
	secure.Node: {
		"stage": "NodeStageVolume", "unstage": "NodeUnstageVolume", "publish": "NodePublishVolume", "unpublish": "NodeUnpublishVolume",
	},
}

// ReadPlugin reads both files of a plugin's process. What is wrong with them in themselves is told, each fault with its place: Faults.
func ReadPlugin(file string, role secure.Role) (*PluginSettings, error) {
	settings := &PluginSettings{
		File: file, Role: role, Set: usualSet(),
		Plugin: Plugin{Name: UsualName, SessionsAbove: UsualAbove, CommandSeconds: 120, Numbers: ByMetadata},
	}
	plugin := &settings.Plugin
	if err := readBoth(file, plugin, &plugin.Place, &settings.Set); err != nil {
		return nil, err
	}
	if plugin.Hooks == "" && role == secure.Node {
		if plugin.Hooks = Mounts; plugin.Upstream != "" {
			plugin.Hooks = NoHooks
		}
	}
	if plugin.Listen == "" && (role == secure.Node || settings.Set.Controller != "") {
		plugin.Listen = settings.Set.Addresses()[settings.plugin()] // as the others find it
	}
	set, process := &checking{file: plugin.Place.Set}, &checking{file: file}
	settings.Set.check(set)
	settings.check(process)
	faults := append(append(set.faults, process.faults...), plugin.open(file, settings.listens())...)
	if len(faults) > 0 {
		return nil, faults
	}
	return settings, nil
}

// Name is this plugin's among them: controller, or node: and the id.
func (settings *PluginSettings) Name() string { return settings.plugin() }

func (settings *PluginSettings) plugin() string {
	if settings.Role == secure.Node {
		return carrying.NodeName(settings.Plugin.Node)
	}
	return carrying.Controller
}

func (settings *PluginSettings) listens() map[string]string {
	return map[string]string{settings.File + ": listen": settings.Plugin.Listen}
}

// PluginName is what CSI has a plugin's name be: as a domain name, and at most 63 characters.
var PluginName = regexp.MustCompile(`^[A-Za-z0-9]([-.A-Za-z0-9]{0,61}[A-Za-z0-9])?$`)

func (settings *PluginSettings) check(to *checking) {
	plugin := &settings.Plugin
	plugin.Place.check(to)
	if local := plugin.Local; local != "" && (!isSocket(local) || local == plugin.Listen || local == plugin.Watch) {
		to.refuse("local", "%q is no unix://PATH, with an absolute path, of its own", local)
	}
	if !PluginName.MatchString(plugin.Name) {
		to.refuse("name", "%q is no name of a plugin, as CSI has them", plugin.Name)
	}
	to.seconds("command_seconds", plugin.CommandSeconds)
	for deed, command := range plugin.Commands {
		if Deeds[settings.Role][deed] == "" {
			to.refuse("commands."+deed, "a %s has no such deed", settings.Role)
		}
		if !filepath.IsAbs(command) {
			to.refuse("commands."+deed, "%q is no absolute path", command)
		}
	}
	settings.checkUpstream(to)
	if settings.Role == secure.Node {
		settings.checkNode(to)
	} else if plugin.Node != "" || plugin.Session != 0 || plugin.Hooks != "" || plugin.MaxVolumes != 0 {
		to.refuse("node", "node, session, hooks and max_volumes are a node's")
	}
}

// What the key numbers says.
const (
	ByMetadata = "metadata"
	ByArrival  = "arrival"
)

// checkUpstream judges what is said of a driver behind.
func (settings *PluginSettings) checkUpstream(to *checking) {
	plugin := &settings.Plugin
	if plugin.Upstream == "" {
		if plugin.Numbers != ByMetadata || plugin.Adopt || len(plugin.Lost) > 0 {
			to.refuse("upstream", "without one there is no numbers, adopt or lost")
		}
		return
	}
	if its := plugin.Upstream; !isSocket(its) || its == plugin.Listen || its == plugin.Local || its == plugin.Watch {
		to.refuse("upstream", "%q is no unix://PATH, with an absolute path, of its own", plugin.Upstream)
	}
	if !carrying.IsLocal(plugin.Listen) {
		to.refuse("listen", "%q is no Unix socket: a set's orchestrator doesn't know the ids of an upstream", plugin.Listen)
	}
	if len(plugin.Commands) > 0 || plugin.Hooks == Mounts && settings.Role == secure.Node || plugin.MaxVolumes != 0 {
		to.refuse("upstream", "with one there are no commands, mounts or max_volumes")
	}
	if plugin.Numbers != ByMetadata && plugin.Numbers != ByArrival {
		to.refuse("numbers", "%q is neither %s nor %s", plugin.Numbers, ByMetadata, ByArrival)
	}
	if plugin.Numbers == ByArrival && plugin.Session > 0 {
		to.refuse("session", "by arrival there is no session of a joining")
	}
	if len(plugin.Lost) > 0 && plugin.Numbers != ByArrival {
		to.refuse("lost", "it is for numbers by arrival: who numbers calls detaches what is lost")
	}
	if settings.Role == secure.Node && (plugin.Adopt || len(plugin.Lost) > 0) {
		to.refuse("adopt", "adopt and lost are a controller's")
	}
}

// isSocket says whether an address is unix://PATH, with an absolute path that a socket can have.
func isSocket(address string) bool {
	path := strings.TrimPrefix(address, "unix://")
	return carrying.IsLocal(address) && filepath.IsAbs(path) && len(path) <= mostSocket
}

func (settings *PluginSettings) checkNode(to *checking) {
	plugin := &settings.Plugin
	if _, isListed := settings.Set.Addresses()[settings.plugin()]; !isListed || plugin.Node == "" {
		to.refuse("node", "%q isn't listed in %s", plugin.Node, plugin.Place.Set)
	}
	if plugin.Etcd != nil {
		to.refuse("etcd", "a node's store is a file")
	}
	if plugin.Hooks != Mounts && plugin.Hooks != NoHooks {
		to.refuse("hooks", "%q is neither %s nor %s", plugin.Hooks, Mounts, NoHooks)
	}
	if plugin.MaxVolumes < 0 {
		to.refuse("max_volumes", "%d is below 0", plugin.MaxVolumes)
	}
}

// CertificateName is this process's in its certificate.
func (settings *PluginSettings) CertificateName() secure.Name {
	return carrying.NameOf(settings.Set.Name, settings.plugin())
}

// Check checks what is outside of the files: that the address can be looked up, and that the certificate names this process and is valid. It tells until
// when that is, if there is one.
func (settings *PluginSettings) Check(ctx context.Context) (until time.Time, err error) {
	until, err = settings.Own()
	return until, joined(lookUp(ctx, settings.listens()), err)
}

// Own is the part of Check that is this process's: its certificates.
func (settings *PluginSettings) Own() (until time.Time, err error) {
	return settings.Plugin.own(settings.File, settings.CertificateName())
}

// Others are the keys, of those that count from a start of the process on, whose values are others in another file.
func (plugin *Plugin) Others(other *Plugin) []string {
	some, others := *plugin, *other
	some.Users, others.Users = nil, nil
	var keys []string
	differing(reflect.ValueOf(some), reflect.ValueOf(others), &keys)
	return keys
}

func differing(some, others reflect.Value, keys *[]string) {
	for at := 0; at < some.NumField(); at++ {
		field := some.Type().Field(at)
		switch {
		case field.Anonymous:
			differing(some.Field(at), others.Field(at), keys)
		case !reflect.DeepEqual(some.Field(at).Interface(), others.Field(at).Interface()):
			*keys = append(*keys, field.Tag.Get("json"))
		}
	}
}
