"""Shared by `make`, `make-ranks` and `make-hosts`: starts and queries the samples' daemons, and stores their output.

The command line of each of them:

    unshare --net --mount samples/make [--root DIR] [--into NAME] [PART..]

Without --root the daemons of this machine are used. With it, those of the directory DIR, which has another release of
Debian (`mmdebstrap --variant=apt --include=bird2,frr,gobgpd,openbgpd,iproute2,bgpdump,procps RELEASE DIR`). DIR isn't
changed. With --into the samples are kept in the directory samples/NAME instead of samples.
"""
import argparse
import json
import os
import pathlib
import shutil
import subprocess
import sys
import time

HERE = pathlib.Path(__file__).resolve().parent
ADDRESSES = (HERE / "addresses.txt").read_text().split()
# Addresses for daemons with other configurations.
SECONDS = (0, 1, 2, 40, 41, 42, 43, 44, 96, 97, 98, 99)
OTHER = [f"10.{second}.{third}.7" for second in SECONDS for third in range(0, 255, 25)]
REFUSED_BY_KERNEL = ("Invalid argument", "Permission denied", "No route to host")
# the directory at which another root directory is mounted; its changes are gone at the end
MOUNTED = pathlib.Path("/mnt")
FRR = "/usr/lib/frr/bgpd -S -Z -n -l 127.0.0.11 -f collector.conf -i frr.pid --vty_socket . --log file:frr.log"


def say(command, check=True):
    """The output of the command."""
    return subprocess.run(command.split(), check=check, capture_output=True, text=True).stdout


class Kept:
    """The directory in which samples are kept."""

    folder = HERE


def keep(name, text):
    path = Kept.folder / name
    path.parent.mkdir(parents=True, exist_ok=True)
    path.write_text(text)


def keep_file(name, file):
    path = Kept.folder / name
    path.parent.mkdir(parents=True, exist_ok=True)
    path.write_bytes(pathlib.Path(file).read_bytes())


def chosen(parts):
    """The names of the parts that the command line chooses, all if it names none; with --root in that directory."""
    reader = argparse.ArgumentParser()
    reader.add_argument("--root", metavar="DIR")
    reader.add_argument("--into", metavar="NAME", default="")
    reader.add_argument("parts", metavar="PART", nargs="*", default=list(parts))
    arguments = reader.parse_args()
    Kept.folder = HERE / arguments.into
    if arguments.root:
        enter(pathlib.Path(arguments.root).resolve())
    return arguments.parts


def enter(root):
    """Makes that directory the root of this process; what it changes there is gone at the end. It has the samples at
    their path."""
    say(f"mount -t tmpfs none {MOUNTED}")
    upper, work, merged = (MOUNTED / name for name in ("upper", "work", "merged"))
    for folder in (upper, work, merged):
        folder.mkdir()
    say(f"mount -t overlay overlay -o lowerdir={root},upperdir={upper},workdir={work} {merged}")
    inside = merged / HERE.relative_to("/")
    inside.mkdir(parents=True)
    # OpenBGPD's processes have it as their root
    (merged / "run/openbgpd").mkdir(exist_ok=True)
    for command in (f"--bind {HERE} {inside}", f"-t proc proc {merged}/proc", f"-t sysfs sysfs {merged}/sys",
                    f"--rbind /dev {merged}/dev"):
        say(f"mount {command}")
    os.chroot(merged)
    os.chdir("/")


def keep_answers(name, answer, addresses=ADDRESSES):
    keep(name, "".join(f"{address} {answer(address)}\n" for address in addresses))


def wait_for(what, seconds=75):
    for _ in range(seconds * 5):
        if what():
            return
        time.sleep(0.2)
    for log in pathlib.Path(".").glob("*.out"):
        print(f"== {log}\n{log.read_text()[-2000:]}", file=sys.stderr)
    sys.exit(f"{sys.argv[0]}: a daemon didn't come to the state that was waited for")


def bird(control, command):
    return say(f"birdc -s {control} {command}", check=False)


def bird_answer(control, address, table=""):
    """The next hops of BIRD's choice, `discard`, or `no route`."""
    lines = bird(control, f"show route {table} for {address} primary all").splitlines()
    head = next((line for line in lines if "] *" in line or "] !" in line), None)
    if head is None:
        return "no route"
    if " unicast " not in head:
        return "discard"
    hops = [line.split()[1] for line in lines if line.startswith("\tvia ")]
    peer = [line.split()[1] for line in lines if line.startswith("\tBGP.next_hop: ")]
    return " ".join(hops or peer or ["0.0.0.0"])


def kernel_answer(address):
    asked = subprocess.run(["ip", "-j", "route", "get", "fibmatch", address], capture_output=True, text=True)
    if asked.returncode:
        return "discard" if any(error in asked.stderr for error in REFUSED_BY_KERNEL) else "no route"
    route = json.loads(asked.stdout)[0]
    return " ".join(hop.get("gateway", "0.0.0.0") for hop in route.get("nexthops", [route]))


def frr(command):
    return say_words("vtysh", "--vty_socket", ".", "-d", "bgpd", *(word for part in command for word in ("-c", part)))


def say_words(*words):
    return subprocess.run(words, check=True, capture_output=True, text=True).stdout


def zebra(*commands):
    return say_words("vtysh", "--vty_socket", ".", *(word for command in commands for word in ("-c", command)))


def frr_answer(address):
    found = json.loads(frr([f"show bgp ipv4 unicast {address} json"]) or "{}")
    best = [path for path in found.get("paths", []) if path.get("bestpath", {}).get("overall")]
    return best[0]["nexthops"][0]["ip"] if best else "no route"


def gobgp_answer(address):
    text = say(f"gobgp -u 127.0.0.12 global rib {address} -j", check=False)
    paths = next(iter(json.loads(text).values()), []) if text.startswith("{") else []
    hops = [part["nexthop"] for path in paths if path["best"] for part in path["attrs"] if part["type"] == 3]
    return hops[0] if hops else "no route"


def openbgpd_answer(address, socket="openbgpd.sock"):
    paths = json.loads(say(f"bgpctl -s {socket} -j show rib {address}")).get("rib", [])
    return next((path["exit_nexthop"] for path in paths if path.get("best")), "no route")


class Daemons:
    """The daemons that were started; they are stopped, by their process, at the end."""

    def __init__(self):
        self.started = {}

    def start(self, name, command):
        log = open(f"{name}.out", "w")
        self.started[name] = subprocess.Popen(command.split(), stdout=log, stderr=log)

    def stop(self, *names):
        for name in names or list(self.started):
            process = self.started.pop(name)
            process.terminate()
            process.wait(20)


def prepare():
    """Makes the interfaces that next hops are on."""
    if say("ip -br link").count("\n") > 1:
        sys.exit(f"{sys.argv[0]}: run it in a network namespace of its own")
    say("ip link set lo up")
    make_uplink()


def make_uplink():
    """The interface; it is made again if its other end was moved to a namespace."""
    say("ip link del uplink", check=False)
    for command in ("link add uplink type veth peer name far", "link set far up",
                    "addr add 192.0.2.254/24 dev uplink", "link set uplink up"):
        say(f"ip {command}")


def start_frr(daemons, folder, names, more=""):
    """FRR's daemons, zebra first, each with its part of that folder. Their user is frr, which writes to this folder."""
    shutil.copytree(HERE / "frr" / folder, folder)
    os.chmod(".", 0o755)
    say("chown frr:frr .")
    for name in names:
        options = {"zebra": more, "bgpd": "-l 192.0.2.254"}.get(name, "")
        daemons.start(name, f"/usr/lib/frr/{name} -i {name}.pid -z zserv --vty_socket . -A 127.0.0.1 "
                            f"--log file:{name}.log -f {folder}/{name}.conf {options}")
        time.sleep(1)
