// A daemon's life: it loads routes, changes others while goroutines look up, saves them, and after a restart compares.
package main

import (
	"bytes"
	"fmt"
	"log"
	"net/netip"
	"strings"
	"sync"
	"sync/atomic"

	"bemlusag.example/yarib"
)

const (
	transit, peer, changes = 1, 2, 100
	routes                 = "version 2\nadd 10.0.0.0/8 10 192.0.2.1\nadd 10.2.0.0/16 10 discard\n"
)

var prefixes = []netip.Prefix{netip.MustParsePrefix("10.1.0.0/16"), netip.MustParsePrefix("10.3.0.0/16")}

// change gives both routes of the peer another router at once.
func change(table *yarib.ConcurrentTable, k byte) error {
	operation, hop := yarib.Replace, yarib.Via(netip.AddrFrom4([4]byte{192, 0, 2, 100 + k}))
	if k == 0 {
		operation = yarib.Add
	}
	commands := []yarib.Command{}
	for _, prefix := range prefixes {
		commands = append(commands, yarib.Command{Operation: operation, Feed: peer, Prefix: prefix, Hop: hop})
	}
	outcomes, err := table.ApplyEach(commands)
	for k, one := range outcomes {
		if one.Err != nil || one.Reply.Code != yarib.Added && one.Reply.Code != yarib.Replaced {
			return fmt.Errorf("%v: %v, %v", commands[k], one.Reply.Code, one.Err)
		}
	}
	return err
}

// agree looks two addresses up, in the table and in a view of it, and returns whether both have the same router.
func agree(table *yarib.ConcurrentTable) (bool, error) {
	addresses, hops, numbers := []uint32{0x0a010001, 0x0a030001}, make([]uint32, 2), make([]uint32, 2)
	if err := table.Hops(addresses, 0, 1, hops); err != nil {
		return false, err
	}
	view, err := table.ViewNew()
	if err != nil {
		return false, err
	}
	err = view.LookUpEach(addresses, numbers)
	return hops[0] == hops[1] && numbers[0] == numbers[1], err
}

// serve loads the transit's routes, changes the peer's while two goroutines look up, and returns the peer's file.
func serve() (string, error) {
	table, err := yarib.NewConcurrent(yarib.MaxLimit)
	if err != nil {
		return "", err
	}
	defer table.Close()
	loaded, err := table.Load(strings.NewReader(routes), transit)
	if err != nil {
		return "", err
	}
	fmt.Printf("loaded %d routes\n", loaded)
	if err := table.FibAttach(); err != nil {
		return "", err
	}
	var isEnded, disagreed int32
	var readers sync.WaitGroup
	for k := 0; k < 2; k++ {
		readers.Add(1)
		go func() {
			defer readers.Done()
			for atomic.LoadInt32(&isEnded) == 0 {
				if isSame, err := agree(table); err != nil {
					log.Fatal(err)
				} else if !isSame {
					atomic.AddInt32(&disagreed, 1)
				}
			}
		}()
	}
	for k := byte(0); k < changes && err == nil; k++ {
		err = change(table, k)
	}
	atomic.StoreInt32(&isEnded, 1)
	readers.Wait()
	if err != nil {
		return "", err
	}
	fmt.Printf("%d changes, %d answers from two tables\n", changes, disagreed)
	var file bytes.Buffer
	err = table.Save(&file, peer)
	return file.String(), err
}

// restored returns a table with the routes of these files, each of another feed.
func restored(files ...string) (*yarib.Table, error) {
	table, err := yarib.New(yarib.MaxLimit)
	for k, file := range files {
		if err == nil {
			_, err = table.Load(strings.NewReader(file), transit+uint32(k))
		}
	}
	return table, err
}

func run() error {
	file, err := serve()
	if err != nil {
		return err
	}
	before, err := restored(routes)
	if err != nil {
		return err
	}
	after, err := restored(routes, file)
	if err != nil {
		return err
	}
	count, err := after.Count()
	if err != nil {
		return err
	}
	fmt.Printf("restored %d routes\n", count)
	return before.WalkDifferences(after, yarib.ByHop, func(one yarib.Difference) bool {
		fmt.Printf("%v to %v: from %v to %v\n", one.First, one.Last, one.Before.Hop, one.After.Hop)
		return true
	})
}

func main() {
	if err := run(); err != nil {
		log.Fatal(err)
	}
}
