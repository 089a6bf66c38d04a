package translate

import (
	"tufayon/service/hooks"
	"tufayon/service/wire"
)

// Secrets are a request's, for a hook, with nothing else.
func Secrets(request interface{ GetSecrets() map[string]string }) hooks.Private {
	return hooks.Private{Secrets: request.GetSecrets()}
}

// PrivateOfCreate is what a hook of a CreateVolume is told.
func PrivateOfCreate(request *wire.CreateVolumeRequest) hooks.Private {
	private := hooks.Private{Secrets: request.GetSecrets(), Parameters: request.GetParameters()}
	for _, capability := range request.GetVolumeCapabilities() {
		private.MountFlags = append(private.MountFlags, capability.GetMount().GetMountFlags()...)
	}
	return private
}

// PrivateOfAttach is what a hook of a ControllerPublishVolume is told.
func PrivateOfAttach(request *wire.ControllerPublishVolumeRequest) hooks.Private {
	return hooks.Private{
		Secrets: request.GetSecrets(), VolumeContext: request.GetVolumeContext(), MountFlags: request.GetVolumeCapability().GetMount().GetMountFlags(),
	}
}

// PrivateOfNode is what a hook of a NodeStageVolume or a NodePublishVolume is told.
func PrivateOfNode(request interface {
	GetSecrets() map[string]string
	GetVolumeContext() map[string]string
	GetPublishContext() map[string]string
	GetVolumeCapability() *wire.VolumeCapability
}) hooks.Private {
	return hooks.Private{
		Secrets: request.GetSecrets(), VolumeContext: request.GetVolumeContext(), PublishContext: request.GetPublishContext(),
		MountFlags: request.GetVolumeCapability().GetMount().GetMountFlags(),
	}
}
