package hosting

import (
	"bytes"
	"context"
	"encoding/hex"
	"encoding/json"
	"errors"
	"fmt"
	"io"
	"os"
	"strings"
	"time"

	"google.golang.org/grpc"
	"google.golang.org/grpc/backoff"
	"google.golang.org/grpc/metadata"

	"tufayon/service/frames"
	"tufayon/service/numbers"
	"tufayon/service/secure"
	"tufayon/service/translate"
)

// Config says where the drivers are, and how long things take.
type Config struct {
	Store           string            `json:"store"`      // the orchestrator's DB
	Config          string            `json:"config"`     // its CONFIG
	Controller      string            `json:"controller"` // its socket, unix://PATH
	Nodes           map[string]string `json:"nodes"`      // each node's, by its id
	Staging         string            `json:"staging"`    // the folder below which volumes are staged, each under its id
	DeadlineSeconds float64           `json:"deadline_seconds"`
	RetrySeconds    float64           `json:"retry_seconds"`
}

// mostSeconds is how long anything may take at most.
const mostSeconds = 1e9

// Read reads the file of a Config: one object, with what its keys may have.
func Read(file string) (Config, error) {
	config := Config{DeadlineSeconds: 60, RetrySeconds: 1}
	content, err := os.ReadFile(file)
	if err != nil {
		return config, err
	}
	decoder := json.NewDecoder(bytes.NewReader(content))
	decoder.DisallowUnknownFields()
	if err := decoder.Decode(&config); err != nil {
		return config, err
	}
	if _, err := decoder.Token(); err != io.EOF {
		return config, errors.New("something stands behind the object")
	}
	for _, it := range []float64{config.DeadlineSeconds, config.RetrySeconds} {
		if it <= 0 || it > mostSeconds {
			return config, fmt.Errorf("nothing may take %v seconds", it)
		}
	}
	return config, nil
}

func seconds(count float64) time.Duration { return time.Duration(count * float64(time.Second)) }

// A carrier makes calls at the drivers' sockets.
type carrier struct {
	config      Config
	connections map[string]*grpc.ClientConn // by plugin
}

// reconnecting says how a driver is sought that isn't there: soon, and then once a second.
var reconnecting = grpc.ConnectParams{
	Backoff:           backoff.Config{BaseDelay: 50 * time.Millisecond, Multiplier: 1.6, Jitter: 0.2, MaxDelay: time.Second},
	MinConnectTimeout: time.Second,
}

// connect makes a connection to each driver that has a socket, which is used whenever the driver is there.
func connect(config Config) (*carrier, error) {
	carrier := &carrier{config: config, connections: map[string]*grpc.ClientConn{}}
	endpoints := map[string]string{"controller": config.Controller}
	for node, endpoint := range config.Nodes {
		endpoints["node:"+node] = endpoint
	}
	for plugin, endpoint := range endpoints {
		if endpoint == "" {
			continue
		}
		connection, err := grpc.Dial(endpoint, append(secure.ToSocket(endpoint), grpc.WithInsecure(), grpc.WithConnectParams(reconnecting))...)
		if err != nil {
			carrier.close()
			return nil, fmt.Errorf("%s: %w", plugin, err)
		}
		carrier.connections[plugin] = connection
	}
	return carrier, nil
}

func (carrier *carrier) close() {
	for _, connection := range carrier.connections {
		connection.Close()
	}
}

// carry makes the call of a frame, and gives the reply's frame: none where no reply came within the deadline.
func (carrier *carrier) carry(ctx context.Context, send Sending) ([]byte, error) {
	frame, err := hex.DecodeString(send.Frame)
	if err != nil {
		return nil, err
	}
	call, err := frames.DecodeCall(frame)
	if err != nil {
		return nil, err
	}
	connection := carrier.connections[send.Plugin]
	if connection == nil {
		return nil, fmt.Errorf("no socket of %s is known", send.Plugin)
	}
	staging := strings.TrimSuffix(carrier.config.Staging, "/") + "/" + translate.VolumeID(call.Volume())
	method, err := translate.MethodOf(call, staging)
	if err == nil {
		ctx, cancel := context.WithTimeout(ctx, seconds(carrier.config.DeadlineSeconds))
		defer cancel()
		ctx = metadata.AppendToOutgoingContext(ctx, numbers.Key, numbers.Text(call.Number))
		err = connection.Invoke(ctx, method.Path, method.Request, method.Response, grpc.WaitForReady(true))
	}
	reply, came := translate.ReplyOf(call, method.Response, err)
	if !came {
		return nil, nil
	}
	return reply.Encode()
}
