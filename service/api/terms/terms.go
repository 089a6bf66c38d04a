// Package terms has what the service and who asks it agree on beside the messages of api/orchestrator.proto.
package terms

const (
	// Service is the name under which the service says whether it serves.
	Service = "tufayon.v1.Orchestrator"

	// Promise is what a LoseRequest has to say, word by word.
	Promise = "off for good, and its store never comes back"

	// LeaderKey is the key of gRPC's trailer that each call gets which a service refuses since it doesn't lead: its value is the address of the one that
	// does, or nothing where that isn't known. Nothing was done.
	LeaderKey = "tufayon-leader"
)
