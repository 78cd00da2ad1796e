// One goroutine changes two routes at once, a hundred times, while two goroutines look both up.
package main

import (
	"fmt"
	"log"
	"net/netip"
	"sync"
	"sync/atomic"

	"bemlusag.example/yarib"
)

// both returns commands for two routes with the same next hop.
func both(operation yarib.Operation, change byte) []yarib.Command {
	hop := yarib.Via(netip.AddrFrom4([4]byte{192, 0, 2, change}))
	return []yarib.Command{
		{Operation: operation, Feed: 1, Prefix: netip.MustParsePrefix("10.0.0.0/8"), Hop: hop},
		{Operation: operation, Feed: 1, Prefix: netip.MustParsePrefix("11.0.0.0/8"), Hop: hop},
	}
}

func main() {
	table, err := yarib.NewConcurrent(1000)
	if err != nil {
		log.Fatal(err)
	}
	defer table.Close()
	if _, err := table.ApplyEach(both(yarib.Add, 0)); err != nil {
		log.Fatal(err)
	}
	var disagreed int64
	var readers sync.WaitGroup
	ended := make(chan struct{})
	for k := 0; k < 2; k++ {
		readers.Add(1)
		go func() {
			defer readers.Done()
			for {
				select {
				case <-ended:
					return
				default:
				}
				answers, err := table.LookUpEach([]uint32{0x0a000001, 0x0b000001})
				if err != nil {
					log.Fatal(err)
				}
				one, _ := answers.At(0)
				other, _ := answers.At(1)
				if one.Hop != other.Hop {
					atomic.AddInt64(&disagreed, 1)
				}
			}
		}()
	}
	for change := 1; change <= 100; change++ {
		if _, err := table.ApplyEach(both(yarib.Replace, byte(change))); err != nil {
			log.Fatal(err)
		}
	}
	close(ended)
	readers.Wait()
	fmt.Printf("100 changes, %d answers from two tables\n", disagreed)
}
