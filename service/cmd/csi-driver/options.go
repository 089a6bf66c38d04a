package main

import (
	"context"
	"errors"
	"flag"
	"fmt"
	"io"
	"net"
	"os"
	"strings"
	"time"

	"tufayon/service/carrying"
	"tufayon/service/driver"
	"tufayon/service/etcd"
	"tufayon/service/life"
	"tufayon/service/numbers"
	"tufayon/service/plugin"
	"tufayon/service/program"
	"tufayon/service/secure"
	"tufayon/service/settings"
	"tufayon/service/store"
	"tufayon/service/upstream"
)

var errUsage = errors.New("usage: csi-driver controller [OPTION..] DB CONFIG, " +
	"csi-driver controller --etcd ENDPOINTS --prefix P [OPTION..] CONFIG, csi-driver node [OPTION..] DB ID [SESSION], " +
	"csi-driver recover [OPTION..] NEW CONFIG SESSION CONTROLLER [NODE..], " +
	"or csi-driver recover-controller [OPTION..] NEW CONFIG NEXT ORCHESTRATOR [NODE..]")

// options are the words of a command line.
type options struct {
	maker     plugin.Maker
	database  string
	socket    string
	name      string
	byArrival bool
	mostAbove uint64

	commands    map[string]*string
	hookSeconds int

	etcd etcd.Config // of a controller

	watch, log string // where metrics are served, and the least level of a log of calls: nothing where they are empty

	maxVolumes int64 // of a node
	hooks      string

	upstream upstream.Options
}

func parse(words []string) (*options, error) {
	if len(words) == 0 || words[0] != "controller" && words[0] != "node" {
		return nil, errUsage
	}
	options := &options{commands: map[string]*string{}}
	options.maker.IsController = words[0] == "controller"
	flags := flag.NewFlagSet("csi-driver", flag.ContinueOnError)
	flags.SetOutput(io.Discard)
	endpoint := flags.String("endpoint", os.Getenv("CSI_ENDPOINT"), "the socket, unix://PATH")
	source := flags.String("numbers", "metadata", "metadata, or arrival")
	flags.StringVar(&options.name, "name", settings.UsualName, "the plugin's name")
	flags.Uint64Var(&options.mostAbove, "sessions-above", settings.UsualAbove, "how far a call's session may be above the latest one; 0 for any")
	flags.StringVar(&options.watch, "watch", "", "where metrics are served: unix://PATH, or HOST:PORT on loopback")
	flags.StringVar(&options.log, "log", "", "has a line for each call: debug, info, warn or error")
	endpoints := ""
	if options.maker.IsController {
		options.addController(flags, &endpoints)
	} else {
		options.addNode(flags)
	}
	flags.IntVar(&options.hookSeconds, "hook-seconds", 120, "how long a command may take")
	flags.StringVar(&options.upstream.Address, "upstream", "", "the driver behind, unix://PATH")
	if err := flags.Parse(words[1:]); err != nil {
		return nil, fmt.Errorf("%w (%v)", errUsage, err)
	}
	if endpoints != "" {
		options.etcd.Endpoints = strings.Split(endpoints, ",")
	}
	name, ok := options.words(flags.Args())
	if !ok || *source != "metadata" && *source != "arrival" || !options.fit() {
		return nil, errUsage
	}
	options.byArrival = *source == "arrival"
	if fault := options.upstreamFault(flags); fault != "" {
		return nil, fmt.Errorf("%w (%s)", errUsage, fault)
	}
	if options.byArrival && options.maker.Session > 0 {
		return nil, fmt.Errorf("%w (by arrival there is no session of a joining)", errUsage)
	}
	var err error
	if options.socket, err = driver.SocketOf(*endpoint); err != nil {
		return nil, fmt.Errorf("%w (%v)", errUsage, err)
	}
	options.maker.Name = []byte(name)
	if !options.maker.IsController {
		options.upstream.Node = name
	}
	if options.maker.IsController {
		if options.maker.Name, err = os.ReadFile(name); err != nil {
			return nil, fmt.Errorf("device: %w", err)
		}
	}
	return options, nil
}

// fit says whether the options have values that they may have, and each that another one needs.
func (options *options) fit() bool {
	if !settings.PluginName.MatchString(options.name) || options.hookSeconds <= 0 || options.hookSeconds > settings.MostSeconds {
		return false
	}
	if !options.maker.IsController {
		return (options.hooks == settings.Mounts || options.hooks == settings.NoHooks) && options.maxVolumes >= 0
	}
	etcd := options.etcd
	isTLS := etcd.CA != "" && etcd.Certificate != "" && etcd.Key != ""
	if len(etcd.Endpoints) == 0 {
		return etcd.Prefix+etcd.CA+etcd.Certificate+etcd.Key == ""
	}
	return etcd.Prefix != "" && etcd.LeaseSeconds > 0 && (isTLS || etcd.CA+etcd.Certificate+etcd.Key == "")
}

// upstreamFault says what is wrong with the words of a driver that stands before another one.
func (options *options) upstreamFault(flags *flag.FlagSet) string {
	its, given := options.upstream, map[string]bool{}
	flags.Visit(func(it *flag.Flag) { given[it.Name] = true })
	if its.Address == "" {
		if given["adopt"] || given["lost"] || given["upstream"] {
			return "--adopt and --lost are of a driver before an --upstream"
		}
		return ""
	}
	if _, err := driver.SocketOf(its.Address); err != nil {
		return err.Error()
	}
	if len(its.Lost) > 0 && !options.byArrival {
		return "--lost is for --numbers arrival: who numbers calls detaches what is lost"
	}
	for name := range given {
		if strings.HasPrefix(name, "on-") || name == "hooks" || name == "hook-seconds" || name == "max-volumes" || name == "name" {
			return "with --upstream there is no --" + name
		}
	}
	options.hooks = settings.NoHooks
	return ""
}

// words takes what stands behind the options: DB, unless the store is in etcd, CONFIG or ID, which it gives, and of a node SESSION, where it is said.
func (options *options) words(words []string) (name string, ok bool) {
	if len(options.etcd.Endpoints) == 0 && len(words) > 0 {
		options.database, words = words[0], words[1:]
	}
	if !options.maker.IsController && len(words) == 2 {
		if options.maker.Session, ok = numbers.Decimal(words[1]); !ok {
			return "", false
		}
		words = words[:1]
	}
	if len(words) != 1 {
		return "", false
	}
	return words[0], true
}

func (options *options) addController(flags *flag.FlagSet, endpoints *string) {
	options.addCommands(flags, settings.Deeds[secure.Controller])
	addEtcd(flags, endpoints, &options.etcd)
	flags.BoolVar(&options.upstream.Adopt, "adopt", false, "volumes that were there before are taken up when they are attached")
	flags.Func("lost", "a node that is gone for good", func(node string) error {
		options.upstream.Lost = append(options.upstream.Lost, node)
		return nil
	})
}

// addEtcd adds the options of a store in etcd.
func addEtcd(flags *flag.FlagSet, endpoints *string, to *etcd.Config) {
	flags.StringVar(endpoints, "etcd", "", "etcd's endpoints, with commas between")
	flags.StringVar(&to.Prefix, "prefix", "", "what the keys of this store begin with in etcd")
	flags.StringVar(&to.CA, "etcd-ca", "", "the certificate of who signed etcd's")
	flags.StringVar(&to.Certificate, "etcd-cert", "", "this client's certificate")
	flags.StringVar(&to.Key, "etcd-key", "", "its key")
	flags.IntVar(&to.LeaseSeconds, "lease-seconds", 10, "how long this process leads after it was heard of last")
}

func (options *options) addNode(flags *flag.FlagSet) {
	options.addCommands(flags, settings.Deeds[secure.Node])
	flags.Int64Var(&options.maxVolumes, "max-volumes", 0, "what NodeGetInfo tells")
	flags.StringVar(&options.hooks, "hooks", settings.Mounts, "mounts, or none")
}

func (options *options) addCommands(flags *flag.FlagSet, deeds map[string]string) {
	for deed, call := range deeds {
		options.commands[call] = flags.String("on-"+deed, "", "the command that does it")
	}
}

// waits says whether this process waits to lead, and may so take long to start.
func (options *options) waits() bool { return len(options.etcd.Endpoints) > 0 }

// open opens the store, and waits until this process leads where it is in etcd.
func (options *options) open(ctx context.Context) (store.Store, error) {
	if options.etcd.Texts = options.upstream.Address != ""; options.waits() {
		return options.etcd.Open(ctx)
	}
	if options.etcd.Texts {
		return store.OpenKeeper(ctx, options.database)
	}
	return store.OpenSQLite(ctx, options.database)
}

// driver is what the options say.
func (options *options) driver() (life.Driver, error) {
	it := life.Driver{
		Program: "csi-driver", Name: options.name, Maker: options.maker, Numbering: life.ByMetadata(options.mostAbove), Open: options.open,
		Waits: options.waits(), Hooks: options.deeds().Hooks(), MaxVolumes: options.maxVolumes,
		Doors: []life.Door{{Address: options.socket, Listen: func() (net.Listener, error) { return driver.Listen(options.socket) }}},
	}
	if !it.Maker.IsController {
		it.Notes = options.database + ".driver"
	}
	if options.byArrival {
		it.Numbering, it.IsByArrival = life.ByArrival, true
	}
	if options.upstream.Address != "" {
		var err error
		if it.Upstream, err = upstream.New(options.upstream); err != nil {
			return life.Driver{}, err
		}
	}
	it.Say = func(line string) {
		if options.byArrival && strings.HasPrefix(line, "serves") {
			fmt.Fprintf(os.Stderr, "csi-driver: %s\n", numbers.SmallerPromise)
		}
		fmt.Fprintf(os.Stderr, "csi-driver: %s\n", line)
	}
	return it, nil
}

// watched is what the options say, with what is to be told of it, and what ends that.
func (options *options) watched() (life.Driver, func(), error) {
	it, err := options.driver()
	if err != nil || options.watch == "" && options.log == "" {
		return it, func() {}, err
	}
	plugin := carrying.Controller
	if !it.Maker.IsController {
		plugin = carrying.NodeName(string(it.Maker.Name))
	}
	told, more, end, err := program.WatchPlugin("csi-driver", plugin, it.Upstream, options.watch, options.log)
	if err != nil {
		return it, nil, err
	}
	it.Observer = told
	it.Doors[0].Options = append(it.Doors[0].Options, more...)
	return it, end, nil
}

// deeds say what does what calls ask for.
func (options *options) deeds() life.Deeds {
	deeds := life.Deeds{
		Commands: map[string]string{}, Within: time.Duration(options.hookSeconds) * time.Second, IsMounts: options.hooks == settings.Mounts,
		Locks: options.database + ".hooks",
	}
	for call, command := range options.commands {
		deeds.Commands[call] = *command
	}
	if options.database == "" {
		deeds.Locks = options.socket + ".hooks"
	}
	return deeds
}
