// A server and a client of grpc-go over TCP, for the figures of live calls.
//
//	peer serve                                       listens at a free port of 127.0.0.1, and prints it
//	peer call PORT METHOD CALLERS CALLS SENT         makes calls of SENT bytes over one connection, and prints its figures
//
// The methods are those of tools/speed_live: Echo answers with the request's message, and Slow does so after 30 ms.
package main

import (
	"context"
	"fmt"
	"net"
	"os"
	"sort"
	"strconv"
	"sync"
	"time"

	"google.golang.org/grpc"
)

const (
	service = "speed.Calls"
	most    = 16 << 20
	late    = 30 * time.Millisecond
)

// A codec of bytes as they are.
type raw struct{}

func (raw) Marshal(v interface{}) ([]byte, error)      { return *v.(*[]byte), nil }
func (raw) Unmarshal(data []byte, v interface{}) error { *v.(*[]byte) = data; return nil }
func (raw) Name() string                               { return "raw" }
func (raw) String() string                             { return "raw" }

func answer(wait time.Duration) func(interface{}, context.Context, func(interface{}) error, grpc.UnaryServerInterceptor) (interface{}, error) {
	return func(_ interface{}, _ context.Context, decode func(interface{}) error, _ grpc.UnaryServerInterceptor) (interface{}, error) {
		var in []byte
		if err := decode(&in); err != nil {
			return nil, err
		}
		time.Sleep(wait)
		return &in, nil
	}
}

func serve() {
	listener, err := net.Listen("tcp", "127.0.0.1:0")
	if err != nil {
		panic(err)
	}
	fmt.Println(listener.Addr().(*net.TCPAddr).Port)
	server := grpc.NewServer(grpc.CustomCodec(raw{}), grpc.MaxRecvMsgSize(most), grpc.MaxSendMsgSize(most))
	server.RegisterService(&grpc.ServiceDesc{
		ServiceName: service,
		HandlerType: (*interface{})(nil),
		Methods: []grpc.MethodDesc{
			{MethodName: "Echo", Handler: answer(0)},
			{MethodName: "Slow", Handler: answer(late)},
		},
	}, struct{}{})
	panic(server.Serve(listener))
}

func number(text string) int {
	n, err := strconv.Atoi(text)
	if err != nil {
		panic(err)
	}
	return n
}

func call(port string, method string, callers, calls, sent int) {
	sizes := grpc.WithDefaultCallOptions(grpc.ForceCodec(raw{}), grpc.MaxCallRecvMsgSize(most), grpc.MaxCallSendMsgSize(most))
	connection, err := grpc.Dial("127.0.0.1:"+port, grpc.WithInsecure(), grpc.WithBlock(), sizes)
	if err != nil {
		panic(err)
	}
	took := make([][]float64, callers)
	var all sync.WaitGroup
	begun := time.Now()
	for caller := range took {
		all.Add(1)
		go func(caller int) {
			defer all.Done()
			for n := caller; n < calls; n += callers {
				in, out := make([]byte, sent), []byte(nil)
				start := time.Now()
				if err := connection.Invoke(context.Background(), "/"+service+"/"+method, &in, &out); err != nil || len(out) != sent {
					panic(fmt.Sprint(err, len(out)))
				}
				took[caller] = append(took[caller], time.Since(start).Seconds())
			}
		}(caller)
	}
	all.Wait()
	seconds := time.Since(begun).Seconds()
	var times []float64
	for _, some := range took {
		times = append(times, some...)
	}
	sort.Float64s(times)
	fmt.Println(seconds, times[len(times)/2], times[len(times)*99/100])
}

func main() {
	if os.Args[1] == "serve" {
		serve()
	}
	call(os.Args[2], os.Args[3], number(os.Args[4]), number(os.Args[5]), number(os.Args[6]))
}
