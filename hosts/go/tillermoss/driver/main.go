// Driver does with the client what hosts/conformance/play says, as its text has it.
package main

import (
	"bufio"
	"context"
	"encoding/hex"
	"errors"
	"fmt"
	"os"
	"strconv"
	"strings"
	"sync"
	"time"

	"tillermoss"
)

type driver struct {
	client  *tillermoss.Client
	events  *tillermoss.Subscription
	guard   sync.Mutex
	handles map[string]*tillermoss.Handle
}

func main() {
	it := &driver{handles: map[string]*tillermoss.Handle{}}
	lines := bufio.NewScanner(os.Stdin)
	for lines.Scan() {
		go func(words []string) {
			said, err := it.do(words[1], append(words[2:], "", ""))
			var refusal *tillermoss.Refusal
			switch {
			case errors.As(err, &refusal):
				said = fmt.Sprintf("refused %d", refusal.Number)
			case err != nil:
				said = "closed " + strconv.Quote(err.Error())
			}
			it.guard.Lock()
			defer it.guard.Unlock()
			fmt.Println(words[0], said)
		}(strings.Fields(lines.Text()))
	}
}

func (it *driver) handle(name string) *tillermoss.Handle {
	it.guard.Lock()
	defer it.guard.Unlock()
	return it.handles[name]
}

func (it *driver) do(kind string, words []string) (string, error) {
	ctx := context.Background()
	switch kind {
	case "connect":
		return "connected", it.connect(ctx, words[0], words[1])
	case "open":
		handle, err := it.client.Open(ctx, words[1], tillermoss.OpenOptions{Mode: tillermoss.ModeReadWrite})
		if err != nil {
			return "", err
		}
		it.guard.Lock()
		defer it.guard.Unlock()
		it.handles[words[0]] = handle
		return fmt.Sprintf("opened %d", handle.Instance()), nil
	case "read":
		return it.read(ctx, it.handle(words[0]))
	case "set":
		content, err := hex.DecodeString(words[1])
		if err == nil {
			err = it.client.Set(ctx, it.handle(words[0]), content)
		}
		return "done", err
	case "event":
		event, err := it.events.Next(ctx)
		return "event " + event.Kind, err
	case "leave":
		it.client.Close()
		return "left", nil
	}
	return "", errors.New("no such command: " + kind)
}

func (it *driver) connect(ctx context.Context, address, milliseconds string) error {
	patience, err := strconv.Atoi(milliseconds)
	if err != nil {
		return err
	}
	if it.client, err = tillermoss.Connect(ctx, address, "ann", tillermoss.Options{Patience: time.Duration(patience) * time.Millisecond}); err == nil {
		it.events = it.client.Subscribe()
	}
	return err
}

func (it *driver) read(ctx context.Context, handle *tillermoss.Handle) (string, error) {
	view, isCached, err := it.client.ReadCached(ctx, handle)
	if err != nil {
		return "", err
	}
	from := "master"
	if isCached {
		from = "cache"
	}
	return fmt.Sprintf("view %x %s", view.Content, from), nil
}
