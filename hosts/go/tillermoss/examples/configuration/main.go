// Configuration shows a file whenever it changes, and reads it whenever it is needed: out of the cache, and yet always the one that the
// cell holds.
//
// Usage: go run ./examples/configuration SERVER NAME
package main

import (
	"context"
	"fmt"
	"os"
	"os/signal"

	"tillermoss"
)

func main() {
	if len(os.Args) != 3 {
		fmt.Fprintln(os.Stderr, "usage: configuration SERVER NAME")
		os.Exit(2)
	}
	ctx, stop := signal.NotifyContext(context.Background(), os.Interrupt)
	defer stop()
	if err := show(ctx, os.Args[1], os.Args[2]); err != nil && ctx.Err() == nil {
		fmt.Fprintln(os.Stderr, "configuration:", err)
		os.Exit(1)
	}
}

func show(ctx context.Context, server, name string) error {
	client, err := tillermoss.Connect(ctx, server, "ann", tillermoss.Options{})
	if err != nil {
		return err
	}
	defer client.Close()
	return client.Watch(ctx, name, func(view *tillermoss.View) error {
		if view == nil {
			fmt.Println("no configuration")
		} else {
			fmt.Printf("configured: %s\n", view.Content)
		}
		return nil
	})
}
