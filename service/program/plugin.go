package program

import (
	"context"
	"fmt"
	"io"
	"net"
	"os"
	"os/signal"
	"path/filepath"
	"strings"
	"sync/atomic"
	"syscall"
	"time"

	"go.uber.org/zap"
	"google.golang.org/grpc"
	"google.golang.org/grpc/keepalive"

	"tufayon/service/carrying"
	"tufayon/service/daemon"
	"tufayon/service/life"
	"tufayon/service/metrics"
	"tufayon/service/numbers"
	"tufayon/service/plugin"
	"tufayon/service/records"
	"tufayon/service/secure"
	core "tufayon/service/serving"
	"tufayon/service/settings"
	"tufayon/service/store"
	"tufayon/service/upstream"
	"tufayon/service/version"
	"tufayon/service/web"
)

// Main is the program of a plugin of this role: it ends the process.
func Main(program string, role secure.Role) {
	if version.Told(program, os.Args[1:], os.Stdout) {
		return
	}
	ctx, stop := Signals()
	err := RunPlugin(ctx, program, role, os.Args[1:], os.Stdout)
	stop()
	if err != nil {
		fmt.Fprintf(os.Stderr, "%s: %v\n", program, err)
	}
	os.Exit(StatusOf(err))
}

// RunPlugin does what the words of a plugin's program say.
func RunPlugin(ctx context.Context, program string, role secure.Role, words []string, output io.Writer) error {
	parsed, err := Parse(program, words, "check")
	if err != nil {
		return err
	}
	read, err := settings.ReadPlugin(parsed.File, role)
	if err != nil {
		return err
	}
	until, err := read.Own()
	if parsed.Has["check"] {
		until, err = read.Check(ctx)
	}
	if err != nil {
		return err
	}
	if err := makerOf(read).Check(); err != nil {
		return err
	}
	if parsed.Has["check"] {
		Checked(output, read.File, read.Plugin.Place.Set, read.CertificateName(), until)
		return nil
	}
	log, err := daemon.Logger(read.Plugin.Log)
	if err != nil {
		return err
	}
	defer log.Sync()
	return servePlugin(ctx, program, read, log)
}

// makerOf says which plugin is made.
func makerOf(read *settings.PluginSettings) plugin.Maker {
	if read.Role == secure.Controller {
		return plugin.Maker{IsController: true, Name: read.Set.Config()}
	}
	return plugin.Maker{Name: []byte(read.Plugin.Node), Session: read.Plugin.Session}
}

// serving is a plugin that is served.
type serving struct {
	read  *settings.PluginSettings
	log   *zap.Logger
	life  *life.Life
	told  *metrics.Driver
	users atomic.Value // []uint32: who may call at a Unix socket
	amiss atomic.Value // string: what isn't mounted that the record has
}

func servePlugin(ctx context.Context, program string, read *settings.PluginSettings, log *zap.Logger) error {
	anew := make(chan os.Signal, 1)
	signal.Notify(anew, syscall.SIGHUP)
	defer signal.Stop(anew)
	log = log.With(zap.String("plugin", read.Name()))
	running := &serving{read: read, log: log}
	running.users.Store(read.Plugin.Users)
	running.amiss.Store("")
	unwatch, err := running.watch(program)
	if err != nil {
		return err
	}
	defer unwatch()
	it, err := running.driver(program)
	if err != nil {
		return err
	}
	running.life = life.New(it)
	ctx, end := context.WithCancel(ctx)
	alive(ctx, running.told)
	defer daemon.Stopping()
	ended := make(chan error, 1)
	go func() { ended <- running.life.Run(ctx) }()
	defer end()
	for {
		select {
		case err := <-ended:
			return err
		case <-anew:
			if err := running.readAnew(ctx); err != nil && ctx.Err() == nil {
				log.Error("all stays as it was", zap.Error(err))
			}
		}
	}
}

// watch has the plugin watched, until what it gives is called.
func (running *serving) watch(program string) (end func(), err error) {
	read := running.read
	running.told = metrics.NewDriver(program, read.Name())
	running.told.Ends = Ends(&read.Plugin.Place, read.CertificateName())
	return Watch{
		Address: read.Plugin.Watch, Files: read.Plugin.Files(), May: running.may, Log: running.log,
		Admit: secure.Those(read.Set.Name, secure.Client, secure.Orchestrator),
	}.Serve(web.Options{Metrics: running.told.Handler(), Ready: running.told.Ready})
}

// driver is what the settings say.
func (running *serving) driver(program string) (life.Driver, error) {
	read := &running.read.Plugin
	hasUpstream := read.Upstream != ""
	it := life.Driver{
		Program: program, Name: read.Name, Maker: makerOf(running.read), Numbering: life.ByMetadata(read.SessionsAbove), MustBegin: !hasUpstream,
		Open: func(ctx context.Context) (store.Store, error) {
			return openStore(ctx, &read.Place, read.Listen, hasUpstream)
		},
		Waits: read.Etcd != nil, Hooks: deedsOf(running.read).Hooks(), MaxVolumes: read.MaxVolumes,
		Doors: running.doors(), Say: running.says, Observer: running.told,
	}
	if running.read.Role == secure.Node {
		it.Notes, it.Starts, it.Trouble = read.Store+".driver", read.Store+".boot", running.trouble
	}
	if read.Numbers == settings.ByArrival {
		it.Numbering, it.IsByArrival = life.ByArrival, true
		running.log.Info(numbers.SmallerPromise)
	}
	var err error
	if hasUpstream {
		it.Upstream, err = upstream.New(upstream.Options{Address: read.Upstream, Adopt: read.Adopt, Lost: read.Lost, Node: read.Node})
	}
	if it.Upstream != nil {
		watchUpstream(it.Upstream, running.told, running.log)
	}
	return it, err
}

// trouble tells what isn't as the record says, or with no text that all is.
func (running *serving) trouble(text string) {
	running.told.Amiss(text != "")
	running.amiss.Store(text)
	if text == "" {
		text = "all is mounted that the record has"
		running.log.Info(text)
	} else {
		running.log.Warn("not all is mounted that the record has", zap.String("why", text))
	}
	daemon.Status(text)
}

// says tells how far it is.
func (running *serving) says(line string) {
	running.log.Info(line)
	if amiss := running.amiss.Load().(string); amiss != "" {
		line += ": " + amiss
	}
	daemon.Ready(line)
}

// deedsOf say what does what calls ask for. Whatever takes the place of commands and mounts is put in here.
func deedsOf(read *settings.PluginSettings) life.Deeds {
	its := &read.Plugin
	deeds := life.Deeds{
		Commands: map[string]string{}, Within: settings.Seconds(its.CommandSeconds), IsMounts: its.Hooks == settings.Mounts, Locks: its.Store + ".hooks",
	}
	for deed, command := range its.Commands {
		deeds.Commands[settings.Deeds[read.Role][deed]] = command
	}
	if its.Store == "" { // in etcd
		deeds.Locks = read.File + ".hooks"
		if folder := os.Getenv("RUNTIME_DIRECTORY"); folder != "" { // a unit's of systemd, where the file's can't be written
			deeds.Locks = filepath.Join(folder, "hooks")
		}
	}
	return deeds
}

// doors are where it is called: by the orchestrator of its set alone, or at a Unix socket by users of this machine.
func (running *serving) doors() []life.Door {
	read := &running.read.Plugin
	called := life.Door{
		Address: read.Listen,
		Listen:  func() (net.Listener, error) { return Listen(read.Listen) },
		Options: append(append(watchedOptions(running.told, running.log), running.known(read.Listen)...),
			grpc.KeepaliveEnforcementPolicy(keepalive.EnforcementPolicy{MinTime: 5 * time.Second, PermitWithoutStream: true}),
			grpc.KeepaliveParams(keepalive.ServerParameters{Time: 30 * time.Second, Timeout: 10 * time.Second}),
		),
	}
	if read.Local == "" {
		return []life.Door{called}
	}
	return []life.Door{called, {
		Address: read.Local, IsLocal: true,
		Listen:  func() (net.Listener, error) { return Listen(read.Local) },
		Options: []grpc.ServerOption{grpc.Creds(secure.Local{May: IsOwn, Refused: running.refused})},
	}}
}

func (running *serving) refused(from net.Addr, why error) {
	running.log.Warn("a caller is refused", zap.Stringer("from", from), zap.Error(why))
}

// known are the options of a server by which callers are known: at a Unix socket at each call, since another list of users counts at once.
func (running *serving) known(address string) []grpc.ServerOption {
	if carrying.IsLocal(address) {
		return secure.Local{May: running.may, Refused: running.refused}.Options()
	}
	orchestrator := secure.Name{Set: running.read.Set.Name, Role: secure.Orchestrator}
	return []grpc.ServerOption{grpc.Creds(running.read.Plugin.Files().Server(secure.Only(orchestrator), running.refused))}
}

// may says whether a user may call.
func (running *serving) may(uid uint32) bool {
	for _, it := range running.users.Load().([]uint32) {
		if it == uid {
			return true
		}
	}
	return IsOwn(uid)
}

// readAnew reads the files anew. Other users count at once, and of a controller another list of nodes, or another greatest size: its plugin is made anew.
func (running *serving) readAnew(ctx context.Context) error {
	read, err := settings.ReadPlugin(running.read.File, running.read.Role)
	if err != nil {
		return err
	}
	if _, err := read.Check(ctx); err != nil {
		return err
	}
	if err := running.stays(read); err != nil {
		return err
	}
	if maker := makerOf(read); string(maker.Name) != string(makerOf(running.read).Name) {
		if err := running.life.Remake(ctx, maker, running.judge(read)); err != nil {
			return settings.Faults{fmt.Sprintf("%s: nodes: %v", read.Plugin.Place.Set, err)}
		}
	}
	running.users.Store(read.Plugin.Users)
	running.read = read
	running.log.Info("the files were read anew", zap.Strings("nodes", read.Set.IDs()))
	return nil
}

// judge judges another list of nodes, which may not leave out one where a volume is attached, and may be yet by the deed of a call under way. A controller
// before another driver has the nodes of which it heard.
func (running *serving) judge(read *settings.PluginSettings) life.Judge {
	if read.Role != secure.Controller || read.Plugin.Upstream != "" {
		return nil
	}
	listed := map[string]bool{}
	for _, id := range read.Set.IDs() {
		listed[id] = true
	}
	return func(view core.View) error {
		for _, id := range view.Volumes() {
			volume, err := records.ReadVolume(view.Row(id))
			if err != nil {
				return err
			}
			for _, node := range volume.Nodes {
				if !listed[node] {
					return fmt.Errorf("%w: %s", plugin.NodeInUse, node)
				}
			}
		}
		return nil
	}
}

// stays says what isn't changed without a restart of the process.
func (running *serving) stays(read *settings.PluginSettings) error {
	var faults settings.Faults
	if running.read.Set.Name != read.Set.Name {
		faults = append(faults, read.Plugin.Place.Set+": set: it changes at a restart only")
	}
	for _, key := range running.read.Plugin.Others(&read.Plugin) {
		faults = append(faults, strings.Join([]string{read.File, key, "it changes at a restart only"}, ": "))
	}
	if len(faults) > 0 {
		return faults
	}
	return nil
}
