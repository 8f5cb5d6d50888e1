// How long Go's client and server take over unary calls of 2 bytes each way, over a pipe in memory.
package main

import (
	"context"
	"fmt"
	"net"
	"os"
	"strconv"
	"syscall"
	"time"

	"google.golang.org/grpc"
	"google.golang.org/grpc/test/bufconn"
)

// A codec of bytes as they are.
type raw struct{}

func (raw) Marshal(v interface{}) ([]byte, error)      { return *v.(*[]byte), nil }
func (raw) Unmarshal(data []byte, v interface{}) error { *v.(*[]byte) = data; return nil }
func (raw) Name() string                               { return "raw" }
func (raw) String() string                             { return "raw" }

func echo(_ interface{}, _ context.Context, dec func(interface{}) error, _ grpc.UnaryServerInterceptor) (interface{}, error) {
	var in []byte
	if err := dec(&in); err != nil {
		return nil, err
	}
	return &in, nil
}

func used() time.Duration {
	var usage syscall.Rusage
	syscall.Getrusage(syscall.RUSAGE_SELF, &usage)
	return time.Duration(usage.Utime.Nano() + usage.Stime.Nano())
}

func main() {
	count, _ := strconv.Atoi(os.Args[1])
	listener := bufconn.Listen(1 << 20)
	server := grpc.NewServer(grpc.CustomCodec(raw{}))
	server.RegisterService(&grpc.ServiceDesc{
		ServiceName: "a.B",
		HandlerType: (*interface{})(nil),
		Methods:     []grpc.MethodDesc{{MethodName: "C", Handler: echo}},
	}, struct{}{})
	go server.Serve(listener)
	dial := func(context.Context, string) (net.Conn, error) { return listener.Dial() }
	conn, err := grpc.Dial("pipe", grpc.WithInsecure(), grpc.WithContextDialer(dial), grpc.WithDefaultCallOptions(grpc.ForceCodec(raw{})))
	if err != nil {
		panic(err)
	}
	call := func() {
		in, out := []byte("hi"), []byte(nil)
		if err := conn.Invoke(context.Background(), "/a.B/C", &in, &out); err != nil || string(out) != "hi" {
			panic(fmt.Sprint(err, out))
		}
	}
	for i := 0; i < 100; i++ {
		call()
	}
	start, begun := time.Now(), used()
	for i := 0; i < count; i++ {
		call()
	}
	wall, cpu := time.Since(start), used()-begun
	fmt.Printf("%d calls: %.1f us of wall time a call, %.1f us of processor time a call\n", count, float64(wall.Microseconds())/float64(count), float64(cpu.Microseconds())/float64(count))
}
