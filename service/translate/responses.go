package translate

import (
	"google.golang.org/grpc/codes"
	"google.golang.org/grpc/status"

	"tufayon/service/frames"
	"tufayon/service/records"
	"tufayon/service/wire"
)

// Refusal is the error of a reply's status, with its detail as message: nil where the call succeeded.
func Refusal(reply frames.Reply) error {
	if reply.Status == 0 {
		return nil
	}
	return status.Error(codes.Code(reply.Status), reply.Detail)
}

// Created is the response to a CreateVolume that succeeded; the row is the volume's, which says what capacity it has, and the context its hook's.
func Created(reply frames.Reply, row []byte, context map[string]string) (*wire.CreateVolumeResponse, error) {
	volume, err := records.ReadVolume(row)
	if err != nil {
		return nil, status.Error(codes.Internal, err.Error())
	}
	return &wire.CreateVolumeResponse{Volume: &wire.Volume{
		VolumeId:      VolumeID(reply.Volume),
		CapacityBytes: int64(volume.Capacity),
		VolumeContext: context,
	}}, nil
}

// Validated is the response to a ValidateVolumeCapabilities of a volume that is there. Confirmed are the capabilities where the volume has all of
// them and no parameters are given: those of a volume aren't kept, nor is its context, and so they aren't confirmed.
func Validated(volume records.Volume, asked Validation, request *wire.ValidateVolumeCapabilitiesRequest) *wire.ValidateVolumeCapabilitiesResponse {
	if len(request.GetParameters()) > 0 {
		return &wire.ValidateVolumeCapabilitiesResponse{Message: "parameters"}
	}
	for _, capability := range asked.Capabilities {
		if !volume.Has(capability) {
			return &wire.ValidateVolumeCapabilitiesResponse{Message: "capability"}
		}
	}
	return &wire.ValidateVolumeCapabilitiesResponse{Confirmed: &wire.ValidateVolumeCapabilitiesResponse_Confirmed{
		VolumeCapabilities: request.GetVolumeCapabilities(),
	}}
}
