package yarib

import (
	"errors"
	"net/netip"
	"os"
	"strconv"
	"strings"
	"testing"
	"testing/iotest"
)

// line is a call and its answer, each as words.
type line struct{ call, answer []string }

// section is the words of its first line, and its other lines.
type section struct {
	head  []string
	lines []line
}

// sections returns the sections of this kind. dev/models/table_vectors.py writes and describes them.
func sections(t *testing.T, kind string) []section {
	t.Helper()
	file := os.Getenv("YARIB_VECTORS")
	if file == "" {
		file = "../out/vectors"
	}
	text, err := os.ReadFile(file)
	if err != nil {
		t.Fatal("the README says how to make test vectors:", err)
	}
	all := []section{}
	for _, one := range strings.Split(strings.TrimSuffix(string(text), "\n"), "\n") {
		call, answer, isCall := strings.Cut(one, " =")
		if isCall {
			last := &all[len(all)-1]
			last.lines = append(last.lines, line{strings.Fields(call), strings.Fields(answer)})
		} else {
			all = append(all, section{head: strings.Fields(one)})
		}
	}
	found := []section{}
	for _, one := range all {
		if one.head[0] == kind {
			found = append(found, one)
		}
	}
	return found
}

func numberIn(word string) uint32 {
	number, err := strconv.ParseUint(word, 10, 32)
	if err != nil {
		panic(err)
	}
	return uint32(number)
}

func hopIn(word string) Hop {
	if word == "discard" {
		return Discard
	}
	return Via(netip.MustParseAddr(word))
}

// routeIn returns a route, or false for "-".
func routeIn(word string) (Route, bool) {
	if word == "-" {
		return Route{}, false
	}
	fields := strings.Split(word, ",")
	return Route{netip.MustParsePrefix(fields[0]), numberIn(fields[1]), numberIn(fields[2]), hopIn(fields[3])}, true
}

func routesIn(words []string) []Route {
	routes := []Route{}
	for _, word := range words {
		route, isThere := routeIn(word)
		if !isThere {
			panic(words)
		}
		routes = append(routes, route)
	}
	return routes
}

var namedOperations = map[string]Operation{"add": Add, "replace": Replace, "withdraw": Withdraw, "lookup": Lookup, "dump": Dump, "purge": Purge}

// commandIn returns a feed's command. If the operation doesn't use them, the fields of the command have values that aren't
// zero, which the library ignores.
func commandIn(feed string, words []string) Command {
	unused := netip.MustParsePrefix("10.0.0.0/8")
	command := Command{namedOperations[words[0]], numberIn(feed), unused, unused.Addr(), 7, Via(unused.Addr())}
	switch words[0] {
	case "add", "replace":
		command.Pref, command.Hop = numberIn(words[2]), hopIn(words[3])
		fallthrough
	case "withdraw":
		command.Prefix = netip.MustParsePrefix(words[1])
	case "lookup":
		command.Address = netip.MustParseAddr(words[1])
	}
	return command
}

var namedCodes = map[string]Code{"added": Added, "exists": Exists, "full": Full, "replaced": Replaced, "withdrawn": Withdrawn, "missing": Missing,
	"found": Found, "none": NotFound, "dumped": Dumped, "purged": Purged}

// replyIn returns a reply, or false if the command's feed is none.
func replyIn(words []string) (Reply, bool) {
	if words[0] == "range" {
		return Reply{}, false
	}
	reply := Reply{Code: namedCodes[words[0]]}
	switch words[0] {
	case "found":
		reply.Route, _ = routeIn(words[1])
	case "dumped", "purged":
		reply.Count = numberIn(words[1])
	}
	return reply, true
}

// outcomeOf returns what ApplyEach returns for a command.
func outcomeOf(command Command, answer []string) Outcome {
	reply, isAnswered := replyIn(answer)
	if !isAnswered {
		return Outcome{Err: &CommandError{command, ErrNumber}}
	}
	return Outcome{Reply: reply}
}

// applied executes a command by its own call if there is one.
func applied(one *common, command Command) (Reply, error) {
	switch command.Operation {
	case Add:
		return one.Add(command.Feed, command.Prefix, command.Pref, command.Hop)
	case Replace:
		return one.Replace(command.Feed, command.Prefix, command.Pref, command.Hop)
	case Withdraw:
		return one.Withdraw(command.Feed, command.Prefix)
	}
	return one.Apply(command)
}

// execute executes a command by its own call, and by Apply if it has none, and compares its reply and its error.
func execute(t *testing.T, one *common, command Command, answer []string) {
	t.Helper()
	reply, err := applied(one, command)
	wanted, isAnswered := replyIn(answer)
	reason := map[Code]error{Exists: ErrExists, Full: ErrFull, Missing: ErrMissing}[wanted.Code]
	if !isAnswered {
		reason = ErrNumber
	}
	same(t, "a reply", reply, wanted)
	if reason == nil {
		must(t, err)
		return
	}
	if command.Operation <= Withdraw {
		command = written(command)
	}
	same(t, "an error", plainly(err), CommandError{command, reason})
}

// executePut executes `put`, and compares its reply, which is the last of its commands'.
func executePut(t *testing.T, one *common, command Command, answer []string) {
	t.Helper()
	reply, err := one.Put(command.Feed, command.Prefix, command.Pref, command.Hop)
	wanted, _ := replyIn(answer[len(answer)-1:])
	same(t, "a reply", reply, wanted)
	same(t, "whether the feed is full", errors.Is(err, ErrFull), wanted.Code == Full)
}

// commandsOfPut returns the commands of `put` that are in a journal: an add and, if that finds a route, a replace.
func commandsOfPut(line line) []Command {
	commands := []Command{}
	for k := range line.answer {
		commands = append(commands, commandIn(line.call[1], append([]string{[]string{"add", "replace"}[k]}, line.call[2:]...)))
	}
	return commands
}

func TestEveryCallAnswersAsTheModel(t *testing.T) {
	for at, section := range sections(t, "table") {
		limit := numberIn(section.head[1])
		plain, journaled := table(t, limit, false), table(t, limit, true)
		if at%8 == 3 {
			must(t, plain.FibAttach())
		}
		entries, commands, outcomes := []Entry{}, []Command{}, []Outcome{}
		for _, line := range section.lines {
			asked, answers := []Command{}, [][]string{line.answer}
			switch line.call[0] {
			case "apply":
				asked = []Command{commandIn(line.call[1], line.call[2:])}
				execute(t, &plain.common, asked[0], line.answer)
			case "put":
				asked, answers = commandsOfPut(line), nil
				executePut(t, &plain.common, asked[0], line.answer)
				for k := range asked {
					answers = append(answers, line.answer[k:k+1])
				}
			default:
				compareRead(t, &plain.common, line.call, line.answer)
			}
			for k, command := range asked {
				outcome := outcomeOf(command, answers[k])
				commands, outcomes = append(commands, command), append(outcomes, outcome)
				if outcome.Err == nil {
					entries = append(entries, Entry{written(command), outcome.Reply})
				}
			}
		}
		found, err := journaled.ApplyEach(commands)
		must(t, err)
		same(t, "outcomes", resultsOf(found), resultsOf(outcomes))
		listed, err := journaled.Journal()
		must(t, err)
		same(t, "the journal", listed, entries)
		ranges, err := journaled.Differences(plain, ByRoute)
		must(t, err)
		same(t, "differences", ranges, []Difference{})
	}
}

func TestEveryCallOfAConcurrentTableAnswersAsTheModel(t *testing.T) {
	for at, section := range sections(t, "table") {
		one := concurrentTable(t, numberIn(section.head[1]))
		if at%8 == 3 {
			must(t, one.FibAttach())
			bytes, err := one.Memory()
			must(t, err)
			if bytes < 2<<26 {
				t.Fatal(bytes)
			}
		}
		for rest := section.lines; len(rest) > 0; {
			// Commands that follow one another are executed in one call.
			commands, outcomes := []Command{}, []Outcome{}
			for len(commands) < len(rest) && rest[len(commands)].call[0] == "apply" {
				line := rest[len(commands)]
				command := commandIn(line.call[1], line.call[2:])
				commands, outcomes = append(commands, command), append(outcomes, outcomeOf(command, line.answer))
			}
			call, answer, size := rest[0].call, rest[0].answer, 1
			switch {
			case len(commands) > 1:
				found, err := one.ApplyEach(commands)
				must(t, err)
				same(t, "outcomes", resultsOf(found), resultsOf(outcomes))
				size = len(commands)
			case len(commands) == 1:
				execute(t, &one.common, commands[0], answer)
			case call[0] == "put":
				executePut(t, &one.common, commandsOfPut(rest[0])[0], answer)
			default:
				compareRead(t, &one.common, call, answer)
			}
			rest = rest[size:]
		}
	}
}

var namedParts = map[string]Part{"all": All, "within": Within, "covering": Covering, "exact": Exact}

// compareRead compares what a call that reads returns. `common` has the calls of both tables.
func compareRead(t *testing.T, one *common, call, answer []string) {
	t.Helper()
	what := strings.Join(call, " ")
	switch call[0] {
	case "count":
		found, err := one.Count()
		must(t, err)
		same(t, what, found, int(numberIn(answer[0])))
	case "look_up":
		wanted, isThere := routeIn(answer[0])
		asked := netip.MustParseAddr(call[1])
		for _, form := range []netip.Addr{asked, netip.AddrFrom16(asked.As16())} {
			route, found, err := one.LookUp(form)
			must(t, err)
			same(t, what, []any{route, found}, []any{wanted, isThere})
		}
	case "look_up_prefix":
		wanted, isThere := routeIn(answer[0])
		route, found, err := one.LookUpPrefix(netip.MustParsePrefix(call[1]))
		must(t, err)
		same(t, what, []any{route, found}, []any{wanted, isThere})
	case "look_up_each":
		compareLookUps(t, one, call[1:], answer)
	case "hop_counts":
		found, err := one.HopCounts()
		must(t, err)
		wanted := []HopCount{}
		for k := 0; k < len(answer); k += 2 {
			wanted = append(wanted, HopCount{hopIn(answer[k]), numberIn(answer[k+1])})
		}
		same(t, what, found, wanted)
	case "save":
		compareFile(t, one, numberIn(call[1]), routesIn(answer))
	default:
		found, err := listedBy(t, one, call)
		must(t, err)
		same(t, what, found, routesIn(answer))
	}
}

// listedBy returns the list that a call returns.
func listedBy(t *testing.T, one *common, call []string) ([]Route, error) {
	t.Helper()
	switch call[0] {
	case "look_up_all":
		return one.LookUpAll(netip.MustParseAddr(call[1]))
	case "select":
		chosen := Selection{Part: namedParts[call[1]], Prefix: netip.MustParsePrefix(call[2]), Feed: numberIn(call[3]), OnlyBest: call[5] == "1"}
		if call[4] != "any" {
			hop := hopIn(call[4])
			chosen.Hop = &hop
		}
		return one.Select(chosen)
	case "routes_from":
		return paged(t, one, Place{netip.MustParsePrefix(call[1]), numberIn(call[2]), numberIn(call[3])}), nil
	}
	return one.Routes()
}

// paged goes over the table from a place on, by pages of several sizes, and returns all routes of the last size.
func paged(t *testing.T, one *common, from Place) []Route {
	t.Helper()
	listed := []Route{}
	for most := 1; most <= 9; most += 4 {
		found, place := []Route{}, from
		for isFull := true; isFull; {
			page, err := one.RoutesFrom(place, most)
			must(t, err)
			found = append(found, page...)
			if isFull = len(page) == most; isFull {
				place = page[most-1].Behind()
			}
		}
		if most > 1 {
			same(t, "pages of another size", found, listed)
		}
		listed = found
	}
	none, err := one.RoutesFrom(from, 0)
	must(t, err)
	same(t, "an empty page", len(none), 0)
	return listed
}

// compareLookUps compares the answers for many addresses, and the same as numbers: hops and, if a forwarding table is attached,
// those of a view.
func compareLookUps(t *testing.T, one *common, addresses, answer []string) {
	t.Helper()
	asked, hops := []uint32{}, []uint32{}
	for k, word := range answer {
		asked = append(asked, uint32(numberOf(netip.MustParseAddr(addresses[k]))))
		route, isThere := routeIn(word)
		router, isVia := route.Hop.Router()
		switch {
		case !isThere:
			hops = append(hops, 1<<31+1)
		case !isVia:
			hops = append(hops, 1<<31+2)
		default:
			hops = append(hops, uint32(numberOf(router)))
		}
	}
	answers, err := one.LookUpEach(asked)
	must(t, err)
	same(t, "the number of answers", answers.Len(), len(asked))
	for k, word := range answer {
		wanted, isThere := routeIn(word)
		route, found := answers.At(k)
		same(t, "an answer", []any{route, found}, []any{wanted, isThere})
	}
	found := make([]uint32, len(asked))
	must(t, one.Hops(asked, 1<<31+1, 1<<31+2, found))
	same(t, "hops", found, hops)
	if err := one.Hops(asked, 0, 1, make([]uint32, len(asked)+1)); !errors.Is(err, ErrSize) {
		t.Fatal(err)
	}
	view, err := one.ViewNew()
	attached, also := one.FibIsAttached()
	must(t, also)
	if !attached {
		same(t, "whether there is a view", []bool{view == nil, errors.Is(err, ErrKind)}, []bool{true, true})
		return
	}
	must(t, err)
	compareView(t, view, asked, hops)
}

// compareFile compares the file of a feed's routes, and what another table loads of it.
func compareFile(t *testing.T, one *common, feed uint32, routes []Route) {
	t.Helper()
	text, lines := strings.Builder{}, "version 2\n"
	for _, route := range routes {
		lines += lineOf(route)
	}
	must(t, one.Save(&text, feed))
	same(t, "a file", text.String(), lines)
	for _, other := range []*common{&table(t, 1000000, false).common, &concurrentTable(t, 1000000).common} {
		// The last line may lack its end, and the reader may return one byte at a time.
		count, err := other.Load(iotest.OneByteReader(strings.NewReader(strings.TrimSuffix(lines, "\n"))), feed)
		must(t, err)
		same(t, "the number of loaded routes", count, len(routes))
		found, err := other.Routes()
		must(t, err)
		same(t, "routes loaded", found, routes)
	}
}

// differencesIn returns differences, each of which is four words.
func differencesIn(words []string, by string) []Difference {
	found := []Difference{}
	side := func(word string) (Route, bool) {
		if by == "route" || word == "-" {
			return routeIn(word)
		}
		return Route{Prefix: netip.MustParsePrefix("0.0.0.0/0"), Hop: hopIn(word)}, true
	}
	for k := 0; k < len(words); k += 4 {
		one := Difference{First: netip.MustParseAddr(words[k]), Last: netip.MustParseAddr(words[k+1])}
		one.Before, one.HasBefore = side(words[k+2])
		one.After, one.HasAfter = side(words[k+3])
		found = append(found, one)
	}
	return found
}

func TestBothSidesOfEachDifference(t *testing.T) {
	for _, section := range sections(t, "pair") {
		tables := map[string]*Table{"old": table(t, 99, false), "new": table(t, 99, true)}
		for _, line := range section.lines {
			if line.call[0] != "differences" {
				reply, err := tables[line.call[0]].Apply(commandIn(line.call[1], line.call[2:]))
				must(t, err)
				wanted, _ := replyIn(line.answer)
				same(t, "a reply", reply, wanted)
				continue
			}
			older, newer := tables[line.call[1]], tables[line.call[2]]
			by := map[string]By{"hop": ByHop, "route": ByRoute}[line.call[3]]
			found, err := older.Differences(newer, by)
			must(t, err)
			wanted := differencesIn(line.answer, line.call[3])
			same(t, "differences", found, wanted)
			count := 0
			must(t, older.WalkDifferences(newer, by, func(Difference) bool { count++; return count < 2 }))
			if len(wanted) > 2 {
				wanted = wanted[:2]
			}
			same(t, "where a walk ends", count, len(wanted))
		}
	}
}

// changesIn returns the changes of best routes, each of which is two words.
func changesIn(words []string) []Change {
	found := []Change{}
	for k := 0; k < len(words); k += 2 {
		one := Change{}
		one.Before, one.HasBefore = routeIn(words[k])
		one.After, one.HasAfter = routeIn(words[k+1])
		one.Prefix = one.Before.Prefix
		if !one.HasBefore {
			one.Prefix = one.After.Prefix
		}
		found = append(found, one)
	}
	return found
}

func TestChangesAreThoseOfTheBestRoutes(t *testing.T) {
	for at, section := range sections(t, "changes") {
		limit := numberIn(section.head[1])
		for _, one := range []*common{&table(t, limit, at%2 == 1).common, &concurrentTable(t, limit).common} {
			for _, line := range section.lines {
				command := commandIn(line.call[1], line.call[2:])
				if line.answer[0] == "refused" {
					if _, _, _, err := one.ApplyChanged(command); !errors.Is(err, ErrCommand) {
						t.Fatal(command, err)
					}
					continue
				}
				size := 1
				if command.Operation == Purge {
					size = 2
				}
				reply, changes := changedBy(t, one, command)
				wanted, _ := replyIn(line.answer[:size])
				same(t, "a reply", reply, wanted)
				same(t, command.String(), changes, changesIn(line.answer[size:]))
			}
		}
	}
}

// deal executes a command of a source by its call.
func deal(source Source, command Command, isPut bool) (Reply, error) {
	switch command.Operation {
	case Add:
		if isPut {
			return source.Put(command.Prefix, command.Pref, command.Hop)
		}
		return source.Add(command.Prefix, command.Pref, command.Hop)
	case Replace:
		return source.Replace(command.Prefix, command.Pref, command.Hop)
	case Withdraw:
		return source.Withdraw(command.Prefix)
	}
	count, err := source.Purge()
	return Reply{Code: Purged, Count: uint32(count)}, err
}

// TestASourceIsOneFeedInEveryAnswer compares the feeds to which a source is dealt with one feed, the first of them.
func TestASourceIsOneFeedInEveryAnswer(t *testing.T) {
	for _, section := range sections(t, "source") {
		first, feeds := numberIn(section.head[1]), numberIn(section.head[2])
		one, used := table(t, 1000000, false), map[uint32]bool{}
		source, err := NewSource(one, first, feeds)
		must(t, err)
		asOne := func(route Route) Route {
			if first <= route.Feed && route.Feed < first+feeds {
				used[route.Feed] = true
				same(t, "the feed of a prefix", source.FeedOf(route.Prefix), route.Feed)
				route.Feed = first
			}
			return route
		}
		for _, line := range section.lines {
			compareDealt(t, one, source, line.call, line.answer, asOne)
		}
		same(t, "the number of feeds used", len(used), 3)
	}
}

// compareDealt compares what a call of a source, or of its table, returns.
func compareDealt(t *testing.T, one *Table, source Source, call, answer []string, asOne func(Route) Route) {
	t.Helper()
	switch call[0] {
	case "apply":
		wanted, _ := replyIn(answer)
		reply, err := one.Apply(commandIn(call[1], call[2:]))
		must(t, err)
		reply.Route = asOne(reply.Route)
		same(t, "a reply", reply, wanted)
	case "deal":
		isPut, words := call[1] == "put", call[1:]
		if isPut {
			words, answer = append([]string{"add"}, call[2:]...), answer[len(answer)-1:]
		}
		reply, err := deal(source, commandIn("1", words), isPut)
		wanted, _ := replyIn(answer)
		same(t, "a reply", reply, wanted)
		same(t, "whether nothing changed", err != nil, unchanged(wanted.Code) != nil)
	case "look_up":
		route, found, err := one.LookUp(netip.MustParseAddr(call[1]))
		must(t, err)
		wanted, isThere := routeIn(answer[0])
		same(t, "a look-up", []any{asOne(route), found}, []any{wanted, isThere})
	default:
		list := one.Routes
		if call[0] == "source_routes" {
			list = source.Routes
		}
		routes, err := list()
		must(t, err)
		for k := range routes {
			routes[k] = asOne(routes[k])
		}
		same(t, call[0], routes, routesIn(answer))
	}
}
