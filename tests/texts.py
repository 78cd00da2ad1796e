"""Texts of feeds that several scripts run, and their outputs."""
import functools

from dev.models.table_model import dotted, row, shown

ROW = "add 10.0.0.0/8 100 192.0.2.1\n"
ROW_OUT = "1:1 added\ntable 1\n" + row("10.0.0.0/8", 1, 100)

# Lines that leave the table as it was.
AGAIN = "add 10.0.0.0/8 100 192.0.2.1\nlookup 10.1.2.3\nwithdraw 10.0.0.0/8\ndump\n"

# A forwarding table answers for at least these numbers of addresses, of routes and of addresses for each route
# (MANY_ADDRESSES, MANY_ROUTES and ADDRESSES_A_ROUTE of rt_run/src/forwarding.rt).
FORWARDED = 1 << 19, 1 << 14, 3


def own_text(feed):
    """A text of prefixes that no other feed has."""
    return f"""version 2
add {feed}.0.0.0/8 10 192.0.2.1
replace {feed}.0.0.0/8 9 discard
frob
lookup {feed}.1.2.3
add {feed}.1.0.0/16 10 192.0.2.2
withdraw {feed}.0.0.0/8
purge
add {feed}.2.0.0/16 1 192.0.2.3
"""


def many_routes(count):
    """A feed of `count` routes, addresses in and between them, and what a look-up of each prints."""
    text, asked, answers = routes_of_blocks((count - 1) // 4)
    return text + "".join(f"add 15.0.0.{place}/32 5 discard\n" for place in range((count - 1) % 4)), asked, answers


@functools.lru_cache(1)
def routes_of_blocks(count):
    """The same, of one route and four in each of `count` blocks of addresses."""
    lines, asked, answers = ["version 2\n", "add 8.0.0.0/5 9 discard\n"], [], []

    def ask(addr, route=None):
        asked.append(f"{addr}\n")
        answers.append(f"{addr} route {shown(route)}\n" if route else f"{addr} no route\n")

    for at in range(count):
        base = 0x0A00_0000 + (at << 10)
        whole, part, host = f"{dotted(base)}/23", f"{dotted(base + 256)}/28", f"{dotted(base + 511)}/32"
        lines += [f"add {whole} 3 192.0.2.1\n", f"add {part} 2 192.0.2.2\n", f"add {host} 1 192.0.2.3\n"]
        lines.append(f"add {dotted(base + 768)}/24 4 192.0.2.4\n")
        for place in (0, 255, 272, 510):
            ask(dotted(base + place), (whole, 1, 3, "192.0.2.1"))
        for place in (256, 271):
            ask(dotted(base + place), (part, 1, 2, "192.0.2.2"))
        ask(dotted(base + 511), (host, 1, 1, "192.0.2.3"))
        ask(dotted(base + 512), ("8.0.0.0/5", 1, 9, "discard"))
        ask(dotted(base + 1023), (f"{dotted(base + 768)}/24", 1, 4, "192.0.2.4"))
    ask("7.255.255.255")
    ask("255.255.255.255")
    return "".join(lines), asked, answers
