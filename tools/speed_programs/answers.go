// How long Go's framer with its decoder takes over answers of head, message and trailers.
package main

import (
	"bytes"
	"fmt"
	"io"
	"os"
	"strconv"
	"syscall"

	"golang.org/x/net/http2"
	"golang.org/x/net/http2/hpack"
)

type blocks struct{ head, trailers string }

var literals = blocks{"\x88\x0f\x10\x10application/grpc", "\x00\x0bgrpc-status\x010"}
var kept = blocks{
	"\x88\x5f\x8b\x1d\x75\xd0\x62\x0d\x26\x3d\x4c\x4d\x65\x64",
	"\x40\x88\x9a\xca\xc8\xb2\x12\x34\xda\x8f\x010\x40\x89\x9a\xca\xc8\xb5\x25\x42\x07\x31\x7f\x00",
}
var indexes = blocks{"\x88\xc0", "\xbf\xbe"}

func frame(out *bytes.Buffer, kind, flags byte, stream uint32, payload string) {
	n := len(payload)
	out.Write([]byte{byte(n >> 16), byte(n >> 8), byte(n), kind, flags, byte(stream >> 24), byte(stream >> 16), byte(stream >> 8), byte(stream)})
	out.WriteString(payload)
}

func answers(count int, b blocks) []byte {
	var out bytes.Buffer
	for i := 0; i < count; i++ {
		stream := uint32(2*i + 1)
		frame(&out, 1, 4, stream, b.head)
		frame(&out, 0, 0, stream, "\x00\x00\x00\x00\x02ok")
		frame(&out, 1, 5, stream, b.trailers)
	}
	return out.Bytes()
}

func used() int64 {
	var usage syscall.Rusage
	syscall.Getrusage(syscall.RUSAGE_SELF, &usage)
	return usage.Utime.Nano() + usage.Stime.Nano()
}

// The fields of header blocks and the bytes of DATA.
func read(framer *http2.Framer) (told int) {
	for {
		f, err := framer.ReadFrame()
		if err == io.EOF {
			return told
		}
		if err != nil {
			panic(err)
		}
		switch f := f.(type) {
		case *http2.MetaHeadersFrame:
			told += len(f.Fields)
		case *http2.DataFrame:
			told += len(f.Data())
		}
	}
}

func main() {
	b := literals
	if os.Args[1] == "indexes" {
		b = indexes
	}
	count, _ := strconv.Atoi(os.Args[2])
	reader := bytes.NewReader(answers(1, kept))
	framer := http2.NewFramer(io.Discard, reader)
	if len(os.Args) > 3 {
		framer.SetReuseFrames()
	}
	framer.ReadMetaHeaders = hpack.NewDecoder(4096, nil)
	read(framer)
	text := answers(16, b)
	told := 0
	start := used()
	for i := 0; i < count; i++ {
		reader.Reset(text)
		told += read(framer)
	}
	fmt.Printf("%d us, %d fields and bytes\n", (used()-start)/1000, told)
}
