package translate

import (
	"strings"
	"testing"

	"github.com/golang/protobuf/proto"
	"google.golang.org/grpc/codes"
	"google.golang.org/grpc/status"

	"tufayon/service/hooks"
	"tufayon/service/wire"
)

// how is a mount's capability.
func how(fsType string, flags ...string) *wire.VolumeCapability {
	return &wire.VolumeCapability{
		AccessType: &wire.VolumeCapability_Mount{Mount: &wire.VolumeCapability_MountVolume{FsType: fsType, MountFlags: flags}},
		AccessMode: &wire.VolumeCapability_AccessMode{Mode: wire.VolumeCapability_AccessMode_MULTI_NODE_MULTI_WRITER},
	}
}

func stageAt(path string, capability *wire.VolumeCapability) proto.Message {
	return &wire.NodeStageVolumeRequest{VolumeId: "1", StagingTargetPath: path, VolumeCapability: capability}
}

func publishAt(staging, target string) proto.Message {
	return &wire.NodePublishVolumeRequest{VolumeId: "1", StagingTargetPath: staging, TargetPath: target, VolumeCapability: how("ext4")}
}

// What no hook may get is refused, and what is private is taken.
func TestRefused(t *testing.T) {
	most := strings.Repeat("x", hooks.MaxMap)
	map1, map2 := map[string]string{"": most}, map[string]string{"k": most}
	for _, it := range []struct {
		request proto.Message
		code    codes.Code
		field   string
	}{
		{stageAt("/s", how("")), codes.OK, ""},
		{stageAt("/s", how("ext4-Z_9")), codes.OK, ""},
		{stageAt("/s", how("-t")), codes.InvalidArgument, "fs_type"},
		{stageAt("/s", how("ext4 -o x")), codes.InvalidArgument, "fs_type"},
		{stageAt("/s", how("../ext4")), codes.InvalidArgument, "fs_type"},
		{stageAt("/s", how("\u00e9")), codes.InvalidArgument, "fs_type"},
		{stageAt("/s", how(strings.Repeat("x", 128))), codes.OK, ""},
		{stageAt("/s", how(strings.Repeat("x", 129))), codes.InvalidArgument, "fs_type"},
		{stageAt("/s", how("ext4", most[1:], "x")), codes.OK, ""},
		{stageAt("/s", how("ext4", most, "x")), codes.InvalidArgument, "mount_flags"},
		{stageAt("/s/..x/...", how("")), codes.OK, ""},
		{stageAt("", how("")), codes.InvalidArgument, "staging_target_path"},
		{stageAt("s", how("")), codes.InvalidArgument, "staging_target_path"},
		{stageAt("/s/..", how("")), codes.InvalidArgument, "staging_target_path"},
		{stageAt("/s/../t", how("")), codes.InvalidArgument, "staging_target_path"},
		{&wire.NodeUnstageVolumeRequest{VolumeId: "1", StagingTargetPath: "/../s"}, codes.InvalidArgument, "staging_target_path"},
		{publishAt("/s", "/t"), codes.OK, ""},
		{publishAt("/s", "t"), codes.OK, ""}, // for the plugin to refuse
		{publishAt("", "/t"), codes.FailedPrecondition, "staging_target_path"},
		{publishAt("s", "/t"), codes.InvalidArgument, "staging_target_path"},
		{publishAt("/s", "/t/.."), codes.InvalidArgument, "target_path"},
		{&wire.NodeUnpublishVolumeRequest{VolumeId: "1", TargetPath: "/t/../u"}, codes.InvalidArgument, "target_path"},
		{&wire.DeleteVolumeRequest{VolumeId: "1", Secrets: map1}, codes.OK, ""},
		{&wire.DeleteVolumeRequest{VolumeId: "1", Secrets: map2}, codes.InvalidArgument, "secrets"},
		{&wire.CreateVolumeRequest{Name: "v", Parameters: map1, Secrets: map1}, codes.OK, ""},
		{&wire.CreateVolumeRequest{Name: "v", Parameters: map2, Secrets: map2}, codes.InvalidArgument, "parameters"},
		{&wire.ControllerUnpublishVolumeRequest{VolumeId: "1"}, codes.InvalidArgument, "node_id"},
	} {
		_, err := bodyOf(it.request)
		if status.Code(err) != it.code || err != nil && status.Convert(err).Message() != it.field {
			t.Errorf("%.200s: %v", it.request, err)
		}
	}
	if body, err := ControllerUnpublishVolume(&wire.ControllerUnpublishVolumeRequest{VolumeId: "1"}, true); err != nil || body.Node != "" || body.ID != 1 {
		t.Errorf("of all nodes: %+v, %v", body, err)
	}
}
