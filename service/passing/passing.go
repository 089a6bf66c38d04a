// Package passing hands calls of gRPC on to another server as they came: their messages are bytes that it doesn't read, their metadata and deadlines go
// with them, and what comes back is given back in the same way.
package passing

import (
	"context"
	"fmt"
	"io"
	"time"

	"google.golang.org/grpc"
	_ "google.golang.org/grpc/encoding/gzip" // messages may come so; they are handed on plainly
	"google.golang.org/grpc/metadata"
	"google.golang.org/grpc/status"
)

// MostBytes is how large a message may be, in either direction.
const MostBytes = 64 << 20

// Window is how much of a stream, and of a connection, may be under way. Where it is given, gRPC doesn't find it out by itself, for which it would send a
// ping with each small message.
const Window = 1 << 20

// A Codec takes the bytes of messages for the messages. Client and server each know them by their own name of a codec.
type Codec struct{}

// Marshal gives the bytes that a pointer to them leads to.
func (Codec) Marshal(message any) ([]byte, error) {
	bytes, is := message.(*[]byte)
	if !is {
		return nil, fmt.Errorf("%T isn't passed on as bytes", message)
	}
	return *bytes, nil
}

// Unmarshal keeps the bytes.
func (Codec) Unmarshal(bytes []byte, message any) error {
	into, is := message.(*[]byte)
	if !is {
		return fmt.Errorf("%T isn't passed on as bytes", message)
	}
	*into = append([]byte(nil), bytes...)
	return nil
}

// Name is that of gRPC's own codec, so that what is sent says what it was.
func (Codec) Name() string { return "proto" }

// String is the same, as a server of gRPC's asks for it.
func (Codec) String() string { return "proto" }

// Options are a server's that has every call of any service handled in one way, as bytes.
func Options(handle grpc.StreamHandler) []grpc.ServerOption {
	return []grpc.ServerOption{
		grpc.CustomCodec(Codec{}), grpc.UnknownServiceHandler(handle), grpc.MaxRecvMsgSize(MostBytes), grpc.MaxSendMsgSize(MostBytes),
		grpc.InitialWindowSize(Window), grpc.InitialConnWindowSize(Window),
	}
}

// callOptions are a client's.
var callOptions = []grpc.CallOption{grpc.ForceCodec(Codec{}), grpc.MaxCallRecvMsgSize(MostBytes), grpc.MaxCallSendMsgSize(MostBytes)}

// Onward is a context with the metadata that came with a call, which nobody changes, for the call that goes on.
func Onward(ctx, came context.Context) context.Context {
	headers, _ := metadata.FromIncomingContext(came)
	return metadata.NewOutgoingContext(ctx, headers)
}

// told tells a deadline, and doesn't end there.
type told struct {
	context.Context
	deadline time.Time
}

func (told told) Deadline() (time.Time, bool) { return told.deadline, true }

// Waiting is a context that tells the server behind the deadline of a call that came, and outlives that: what is begun there is waited for.
func Waiting(ctx, came context.Context) context.Context {
	if deadline, is := came.Deadline(); is {
		return told{ctx, deadline}
	}
	return ctx
}

// A Response is what came of a call with one request and one response.
type Response struct {
	Message         []byte
	Header, Trailer metadata.MD
}

// A Failure is an error of the server behind, with what came beside it.
type Failure struct {
	Err             error
	Header, Trailer metadata.MD
}

func (failure *Failure) Error() string { return failure.Err.Error() }
func (failure *Failure) Unwrap() error { return failure.Err }

// GRPCStatus is the error's own.
func (failure *Failure) GRPCStatus() *status.Status { return status.Convert(failure.Err) }

// Call makes a call with one request and one response. An error of it is a Failure.
func Call(ctx context.Context, behind *grpc.ClientConn, method string, request []byte, more ...grpc.CallOption) (Response, error) {
	var response Response
	options := append(callOptions[:len(callOptions):len(callOptions)], grpc.Header(&response.Header), grpc.Trailer(&response.Trailer))
	err := behind.Invoke(ctx, method, &request, &response.Message, append(options, more...)...)
	if err != nil {
		return Response{}, &Failure{Err: err, Header: response.Header, Trailer: response.Trailer}
	}
	return response, nil
}

// Through hands a call on, whatever it is: as many messages as come in both directions.
func Through(behind *grpc.ClientConn, method string, stream grpc.ServerStream) error {
	ctx, end := context.WithCancel(stream.Context())
	defer end()
	onward, err := behind.NewStream(Onward(ctx, ctx), &grpc.StreamDesc{ServerStreams: true, ClientStreams: true}, method, callOptions...)
	if err != nil {
		return err
	}
	go func() {
		if !handOn(stream, onward) {
			end() // the caller is gone
		}
	}()
	if header, err := onward.Header(); err == nil && len(header) > 0 {
		if err := stream.SendHeader(header); err != nil {
			return err
		}
	}
	for {
		var message []byte
		if err := onward.RecvMsg(&message); err != nil {
			stream.SetTrailer(onward.Trailer())
			if err == io.EOF {
				return nil
			}
			return err
		}
		if err := stream.SendMsg(&message); err != nil {
			return err
		}
	}
}

// handOn hands the caller's messages on, to their end; false where they have none.
func handOn(stream grpc.ServerStream, onward grpc.ClientStream) bool {
	for {
		var message []byte
		err := stream.RecvMsg(&message)
		if err == io.EOF {
			return onward.CloseSend() == nil
		}
		if err != nil {
			return false
		}
		if onward.SendMsg(&message) != nil {
			return true // it is over there: the responses say how
		}
	}
}
