// pages URL...: reads pages one after the other by Go's http.Get with its defaults, and prints the least milliseconds that eight of them took.
package main

import (
	"encoding/json"
	"fmt"
	"log"
	"net/http"
	"os"
	"time"
)

func read(url string) error {
	reply, err := http.Get(url)
	if err != nil {
		return err
	}
	defer reply.Body.Close()
	if reply.StatusCode != 200 {
		return fmt.Errorf("%s: status %d", url, reply.StatusCode)
	}
	var page struct {
		Graph []any `json:"@graph"`
	}
	if err := json.NewDecoder(reply.Body).Decode(&page); err != nil {
		return err
	}
	if page.Graph == nil {
		return fmt.Errorf("%s: no page", url)
	}
	return nil
}

func main() {
	urls := os.Args[1:]
	least := time.Hour
	for len(urls) >= 8 {
		begun := time.Now()
		for _, url := range urls[:8] {
			if err := read(url); err != nil {
				log.Fatal(err)
			}
		}
		if took := time.Since(begun); took < least {
			least = took
		}
		urls = urls[8:]
	}
	fmt.Println(least.Milliseconds())
}
