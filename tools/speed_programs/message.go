// How long Go's framer takes over a long message in DATA frames, read in pieces of a size: the frames alone, and with the message put together.
package main

import (
	"bytes"
	"fmt"
	"io"
	"os"
	"strconv"
	"syscall"

	"golang.org/x/net/http2"
	"golang.org/x/net/http2/hpack"
)

const payload = 16384

func frame(out *bytes.Buffer, kind, flags byte, stream uint32, payload []byte) {
	n := len(payload)
	out.Write([]byte{byte(n >> 16), byte(n >> 8), byte(n), kind, flags, byte(stream >> 24), byte(stream >> 16), byte(stream >> 8), byte(stream)})
	out.Write(payload)
}

func answer(length int) []byte {
	text := append([]byte{0, byte(length >> 24), byte(length >> 16), byte(length >> 8), byte(length)}, bytes.Repeat([]byte{'a'}, length)...)
	var out bytes.Buffer
	frame(&out, 1, 4, 1, []byte("\x88\x0f\x10\x10application/grpc"))
	for len(text) > 0 {
		n := len(text)
		if n > payload {
			n = payload
		}
		frame(&out, 0, 0, 1, text[:n])
		text = text[n:]
	}
	frame(&out, 1, 5, 1, []byte("\x00\x0bgrpc-status\x010"))
	return out.Bytes()
}

// At most so many bytes a read.
type pieces struct {
	rest []byte
	size int
}

func (p *pieces) Read(out []byte) (int, error) {
	if len(p.rest) == 0 {
		return 0, io.EOF
	}
	n := len(p.rest)
	if n > p.size {
		n = p.size
	}
	n = copy(out, p.rest[:n])
	p.rest = p.rest[n:]
	return n, nil
}

func used() int64 {
	var usage syscall.Rusage
	syscall.Getrusage(syscall.RUSAGE_SELF, &usage)
	return usage.Utime.Nano() + usage.Stime.Nano()
}

// The fields of header blocks and the bytes of DATA; with `joined` the message stands in one buffer of its length at the end.
func read(framer *http2.Framer, joined bool) (told int) {
	var message []byte
	for {
		f, err := framer.ReadFrame()
		if err == io.EOF {
			return told
		}
		if err != nil {
			panic(err)
		}
		switch f := f.(type) {
		case *http2.MetaHeadersFrame:
			told += len(f.Fields)
		case *http2.DataFrame:
			data := f.Data()
			told += len(data)
			if joined {
				if message == nil {
					length := int(data[1])<<24 | int(data[2])<<16 | int(data[3])<<8 | int(data[4])
					message = make([]byte, 0, length)
					data = data[5:]
				}
				message = append(message, data...)
			}
		}
	}
}

// LEN SIZE COUNT frames|joined
func main() {
	length, _ := strconv.Atoi(os.Args[1])
	size, _ := strconv.Atoi(os.Args[2])
	count, _ := strconv.Atoi(os.Args[3])
	text := answer(length)
	told := 0
	var took int64
	for i := 0; i < count; i++ {
		framer := http2.NewFramer(io.Discard, &pieces{text, size})
		framer.SetReuseFrames()
		framer.ReadMetaHeaders = hpack.NewDecoder(4096, nil)
		start := used()
		told += read(framer, os.Args[4] == "joined")
		took += used() - start
	}
	fmt.Printf("%d us, %d fields and bytes\n", took/1000, told)
}
