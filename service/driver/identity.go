// Package driver serves CSI's gRPC services over a plugin: Identity, and Controller or Node.
package driver

import (
	"context"

	"github.com/golang/protobuf/ptypes/wrappers"
	"google.golang.org/grpc"

	"tufayon/service/wire"
)

// identity is CSI's Identity service of a plugin.
type identity struct {
	name, version string
	backend       *Backend
}

// RegisterIdentity adds CSI's Identity to a server: of a plugin of this name, a domain name, and version.
func RegisterIdentity(server *grpc.Server, backend *Backend, name, version string) {
	wire.RegisterIdentityServer(server, &identity{name: name, version: version, backend: backend})
}

// GetPluginInfo tells the plugin's name and version.
func (identity *identity) GetPluginInfo(context.Context, *wire.GetPluginInfoRequest) (*wire.GetPluginInfoResponse, error) {
	return &wire.GetPluginInfoResponse{Name: identity.name, VendorVersion: identity.version}, nil
}

// GetPluginCapabilities tells that there is a controller, which each instance of a plugin tells alike.
func (identity *identity) GetPluginCapabilities(context.Context, *wire.GetPluginCapabilitiesRequest) (*wire.GetPluginCapabilitiesResponse, error) {
	service := &wire.PluginCapability_Service{Type: wire.PluginCapability_Service_CONTROLLER_SERVICE}
	return &wire.GetPluginCapabilitiesResponse{
		Capabilities: []*wire.PluginCapability{{Type: &wire.PluginCapability_Service_{Service: service}}},
	}, nil
}

// Probe tells whether the plugin serves, or waits for its store still.
func (identity *identity) Probe(context.Context, *wire.ProbeRequest) (*wire.ProbeResponse, error) {
	_, err := identity.backend.core()
	return &wire.ProbeResponse{Ready: &wrappers.BoolValue{Value: err == nil}}, nil
}
