"""Two feeds, look-ups one by one and many at once, and the addresses whose answers a withdrawal changed."""
import ipaddress

import yarib

table = yarib.Table()
table.add("10.0.0.0/8", via="192.0.2.1", feed=1)
before = yarib.Table()
for each in (table, before):
    each.add("10.1.0.0/16", via="192.0.2.2", feed=2)
before.add("10.0.0.0/8", via="192.0.2.1", feed=1)
print(table.look_up("10.1.2.3"))

table.withdraw("10.1.0.0/16", feed=2)
answers = table.look_up_each(["192.0.2.1", "10.1.2.3"])
print([route and route.feed for route in answers])
for change in before.differences(table):
    first, last = map(ipaddress.IPv4Address, change[:2])
    print(f"{first} to {last} goes to {change.after}")
