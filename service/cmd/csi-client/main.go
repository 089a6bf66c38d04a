// csi-client makes one call of CSI's at a driver's socket, and prints the response:
//
//	csi-client [-endpoint unix:///PATH] [-number SESSION.CALL] [-seconds N] CALL [REQUEST]
//
// CALL is CSI's name of the call, REQUEST the request as the JSON of its proto: {} where it is left out. It ends with the status of the call: 0, or
// gRPC's number of the refusal, which standard error has with its message.
package main

import (
	"context"
	"flag"
	"fmt"
	"io"
	"os"
	"reflect"
	"strings"
	"time"

	"github.com/golang/protobuf/jsonpb"
	"github.com/golang/protobuf/proto"
	"google.golang.org/grpc"
	"google.golang.org/grpc/codes"
	"google.golang.org/grpc/metadata"
	"google.golang.org/grpc/status"

	"tufayon/service/numbers"
	"tufayon/service/secure"
	"tufayon/service/version"
	_ "tufayon/service/wire" // the messages
)

const badUse = 64 // no status of gRPC's

func main() {
	if version.Told("csi-client", os.Args[1:], os.Stdout) {
		return
	}
	flags := flag.NewFlagSet("csi-client", flag.ContinueOnError)
	flags.SetOutput(io.Discard)
	endpoint := flags.String("endpoint", os.Getenv("CSI_ENDPOINT"), "the driver's socket")
	number := flags.String("number", "", "the call's number, SESSION.CALL")
	seconds := flags.Int("seconds", 60, "how long to wait")
	if err := flags.Parse(os.Args[1:]); err != nil || flags.NArg() < 1 || flags.NArg() > 2 {
		fmt.Fprintln(os.Stderr, "csi-client: usage: csi-client [-endpoint unix:///PATH] [-number SESSION.CALL] [-seconds N] CALL [REQUEST]")
		os.Exit(badUse)
	}
	ctx, cancel := context.WithTimeout(context.Background(), time.Duration(*seconds)*time.Second)
	defer cancel()
	if *number != "" {
		ctx = metadata.AppendToOutgoingContext(ctx, numbers.Key, *number)
	}
	if err := call(ctx, *endpoint, flags.Arg(0), flags.Arg(1)); err != nil {
		told := status.Convert(err)
		fmt.Fprintf(os.Stderr, "csi-client: %d %s %q\n", told.Code(), told.Code(), told.Message())
		os.Exit(int(told.Code()))
	}
}

func call(ctx context.Context, endpoint, name, text string) error {
	request, response := message(name+"Request"), message(name+"Response")
	if request == nil || response == nil {
		return status.Errorf(codes.Unimplemented, "no call %s", name)
	}
	if text != "" {
		if err := jsonpb.UnmarshalString(text, request); err != nil {
			return status.Error(codes.InvalidArgument, err.Error())
		}
	}
	connection, err := grpc.DialContext(ctx, endpoint, append(secure.ToSocket(endpoint), grpc.WithInsecure())...)
	if err != nil {
		return err
	}
	defer connection.Close()
	if err := connection.Invoke(ctx, "/csi.v1."+service(name)+"/"+name, request, response); err != nil {
		return err
	}
	line, err := (&jsonpb.Marshaler{}).MarshalToString(response)
	if err != nil {
		return err
	}
	if _, err := fmt.Println(line); err != nil {
		return status.Errorf(codes.DataLoss, "the response can't be printed: %v", err)
	}
	return nil
}

// message makes an empty message of csi.v1, or nil where there is none of this name.
func message(name string) proto.Message {
	kind := proto.MessageType("csi.v1." + name)
	if kind == nil {
		return nil
	}
	made, _ := reflect.New(kind.Elem()).Interface().(proto.Message)
	return made
}

// service is the service that has the call.
func service(call string) string {
	switch {
	case strings.HasPrefix(call, "Node"):
		return "Node"
	case strings.HasPrefix(call, "GetPlugin"), call == "Probe":
		return "Identity"
	}
	return "Controller"
}
