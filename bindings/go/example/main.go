// Two feeds, a look-up, the table after a withdrawal, and where it differs from the one before.
package main

import (
	"fmt"
	"log"
	"net/netip"

	"bemlusag.example/yarib"
)

func filled() *yarib.Table {
	table, err := yarib.New(1000)
	if err != nil {
		log.Fatal(err)
	}
	for _, route := range []yarib.Route{
		{Prefix: netip.MustParsePrefix("10.0.0.0/8"), Feed: 1, Pref: 10, Hop: yarib.Via(netip.MustParseAddr("192.0.2.1"))},
		{Prefix: netip.MustParsePrefix("10.1.0.0/16"), Feed: 2, Pref: 20, Hop: yarib.Via(netip.MustParseAddr("192.0.2.2"))},
	} {
		if _, err := table.Add(route.Feed, route.Prefix, route.Pref, route.Hop); err != nil {
			log.Fatal(err)
		}
	}
	return table
}

func main() {
	before, after := filled(), filled()
	if _, err := after.Withdraw(2, netip.MustParsePrefix("10.1.0.0/16")); err != nil {
		log.Fatal(err)
	}
	address := netip.MustParseAddr("10.1.2.3")
	for _, table := range []*yarib.Table{before, after} {
		if route, found, err := table.LookUp(address); err == nil && found {
			fmt.Printf("%v: %v\n", address, route)
		}
	}
	ranges, err := before.Differences(after, yarib.ByHop)
	if err != nil {
		log.Fatal(err)
	}
	for _, one := range ranges {
		fmt.Printf("%v to %v goes another way\n", one.First, one.Last)
	}
}
