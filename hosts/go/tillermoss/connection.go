package tillermoss

import (
	"bufio"
	"bytes"
	"context"
	"crypto/tls"
	"encoding/binary"
	"errors"
	"fmt"
	"io"
	"net"
	"strings"
	"sync"
	"time"
)

const (
	connecting = 5 * time.Second
	writing    = 10 * time.Second
	// (so many blocks wait at most to be written: a Beat, a call, and what goes again)
	unwritten = 64
	largest   = 1_048_566
)

// kindOf says how a server is reached: by unix, tls or tcp.
func kindOf(server string) string {
	kind, _, _ := strings.Cut(server, ":")
	if kind == "unix" || kind == "tls" {
		return kind
	}
	return "tcp"
}

// isFollowed says whether a client that trusts the present server goes where that one sends it: to another that is reached in the same
// way. One that knows its servers by TLS would give itself away over TCP.
func isFollowed(told, present string) bool {
	return kindOf(told) == kindOf(present) && kindOf(told) != "unix"
}

// place is where a server is, without how it is reached.
func place(server string) string {
	for _, kind := range []string{"unix:", "tls:", "tcp:"} {
		if strings.HasPrefix(server, kind) {
			return server[len(kind):]
		}
	}
	return server
}

// connection is blocks over a stream, each after its length in four bytes.
type connection struct {
	stream net.Conn
	reader *bufio.Reader
	toSend chan []byte
	ending sync.Once
	ended  chan struct{}
}

func connect(ctx context.Context, server string, trust *tls.Config) (*connection, error) {
	ctx, cancel := context.WithTimeout(ctx, connecting)
	defer cancel()
	stream, err := dial(ctx, server, trust)
	if err != nil {
		return nil, err
	}
	it := &connection{stream: stream, reader: bufio.NewReader(stream), toSend: make(chan []byte, unwritten), ended: make(chan struct{})}
	go it.write()
	return it, nil
}

func dial(ctx context.Context, server string, trust *tls.Config) (net.Conn, error) {
	var dialer net.Dialer
	if kindOf(server) == "unix" {
		return dialer.DialContext(ctx, "unix", place(server))
	}
	host, port, err := net.SplitHostPort(place(server))
	if err != nil {
		return nil, err
	}
	if host == "" {
		host = "127.0.0.1"
	}
	if kindOf(server) == "tcp" {
		return dialer.DialContext(ctx, "tcp", net.JoinHostPort(host, port))
	}
	if trust == nil {
		return nil, errors.New("tillermoss: a server by TLS wants Options.TLS")
	}
	trust = trust.Clone()
	if trust.ServerName == "" {
		trust.ServerName = host
		if host == "127.0.0.1" || host == "::1" {
			trust.ServerName = "localhost"
		}
	}
	return (&tls.Dialer{Config: trust}).DialContext(ctx, "tcp", net.JoinHostPort(host, port))
}

// send has a block written, and waits for nothing. If the server takes nothing any more the connection ends.
func (it *connection) send(block []byte) {
	select {
	case it.toSend <- block:
	default:
		it.end()
	}
}

func (it *connection) write() {
	for {
		select {
		case <-it.ended:
			return
		case block := <-it.toSend:
			_ = it.stream.SetWriteDeadline(time.Now().Add(writing))
			if _, err := it.stream.Write(sized(nil, block)); err != nil {
				it.end()
				return
			}
		}
	}
}

// next waits for a block. Memory is taken for what comes, not for what the length says.
func (it *connection) next() ([]byte, error) {
	var head [4]byte
	if _, err := io.ReadFull(it.reader, head[:]); err != nil {
		return nil, err
	}
	var block bytes.Buffer
	if _, err := io.CopyN(&block, it.reader, int64(binary.BigEndian.Uint32(head[:]))); err != nil {
		return nil, err
	}
	return block.Bytes(), nil
}

// greet binds the connection to a client, or gives why that isn't so.
func (it *connection) greet(greeting []byte) (welcome, error) {
	it.send(greeting)
	_ = it.stream.SetReadDeadline(time.Now().Add(connecting))
	block, err := it.next()
	if err != nil {
		return welcome{}, fmt.Errorf("tillermoss: the server doesn't greet: %w", err)
	}
	_ = it.stream.SetReadDeadline(time.Time{})
	return readWelcome(block)
}

// end closes the stream; who waits for a block hears of it.
func (it *connection) end() {
	it.ending.Do(func() {
		close(it.ended)
		_ = it.stream.Close()
	})
}
