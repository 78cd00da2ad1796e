"""A daemon's life: it loads routes, changes others while threads look up, saves them, and after a restart compares."""
import ipaddress
import pathlib
import tempfile
import threading

import yarib

TRANSIT, PEER, CHANGES = 1, 2, 100
ROUTES = "version 2\nadd 10.0.0.0/8 10 192.0.2.1\nadd 10.2.0.0/16 10 discard\n"
PREFIXES, ADDRESSES = ("10.1.0.0/16", "10.3.0.0/16"), ("10.1.0.1", "10.3.0.1")


def change(table, k):
    """Gives both routes of the peer another router at once."""
    name = "replace" if k else "add"
    outcomes = table.apply_each((PEER, name, prefix, 0, f"192.0.2.{100 + k}") for prefix in PREFIXES)
    if any(one.status or one.said in ("exists", "full", "missing") for one in outcomes):
        raise RuntimeError(outcomes)


def read(table, ended, faults):
    """Looks both addresses up, in the table and in a view of it, until the daemon ends. Both have the same router."""
    while not ended.is_set():
        hops, view = table.hops(ADDRESSES, no_route=0, discard=1), table.view_new()
        numbers = view.look_up_each(ADDRESSES)
        if len(set(hops)) != 1 or len(set(numbers)) != 1:
            faults.append((hops, numbers))


def serve(transit, peer):
    """Loads the transit's routes, changes the peer's while two threads look up, and saves these."""
    with yarib.ConcurrentTable() as table:
        print(f"loaded {table.load(transit, TRANSIT)} routes")
        table.fib_attach()
        ended, faults = threading.Event(), []
        readers = [threading.Thread(target=read, args=(table, ended, faults)) for _ in range(2)]
        for reader in readers:
            reader.start()
        for k in range(CHANGES):
            change(table, k)
        ended.set()
        for reader in readers:
            reader.join()
        print(f"{CHANGES} changes, {len(faults)} answers from two tables")
        table.save(peer, PEER)


def restored(*files):
    """Returns a table with the routes of these files, each of another feed."""
    table = yarib.Table()
    for feed, file in enumerate(files, TRANSIT):
        table.load(file, feed)
    return table


with tempfile.TemporaryDirectory() as folder:
    transit, peer = pathlib.Path(folder, "transit.feed"), pathlib.Path(folder, "peer.feed")
    transit.write_text(ROUTES)
    serve(transit, peer)
    before, after = restored(transit), restored(transit, peer)
    print(f"restored {len(after)} routes")
    for one in before.differences(after):
        first, last = map(ipaddress.IPv4Address, one[:2])
        print(f"{first} to {last}: from {one.before} to {one.after}")
