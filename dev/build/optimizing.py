"""A copy of the toolchain, made of links, whose `rt try` compiles with -O2 in place of -O0. Large inputs run some thirty
times faster with it. It depends on the layout of the toolchain. Its prover does nothing: `rt try` has the prover look for
reserved names meanwhile, which takes a third of the time, and ./test finds such a name anyway."""
import shutil
import subprocess

from dev.prover import kit

COMPILER = """#!/bin/sh
for word; do
  shift
  if [ "$word" = -O0 ]; then word=-O2; fi
  set -- "$@" "$word"
done
exec '{}' "$@"
"""


def links(made, folder, but):
    """Makes a directory with a link to each file of another one, except these."""
    made.mkdir()
    for path in folder.iterdir():
        if path.name not in but:
            (made / path.name).symlink_to(path)


def optimizing(made):
    """A toolchain whose compiler optimizes: this one's files by links, and copies of the scripts that find them."""
    links(made, kit(), ("bin", "toolchain"))
    links(made / "toolchain", kit() / "toolchain", ("bin",))
    links(made / "toolchain/bin", kit() / "toolchain/bin", ("clang",))
    scripts = [path.name for path in (kit() / "bin").iterdir() if path.open("rb").read(2) == b"#!"]
    links(made / "bin", kit() / "bin", [*scripts, "rattle"])
    for name in scripts:
        shutil.copy(kit() / "bin" / name, made / "bin" / name)
    for path, text in ((made / "toolchain/bin/clang", COMPILER.format(kit() / "toolchain/bin/clang")),
                       (made / "bin/rattle", "#!/bin/sh\n")):
        path.write_text(text)
        path.chmod(0o755)
    return made / "bin/rt"


# The compiler without its sanitizer, and the linker, which also copies the program.
PLAIN_COMPILER = """#!/bin/sh
for word; do
  shift
  case $word in -O0) word=-O2 ;; -fsanitize=address) continue ;; esac
  set -- "$@" "$word"
done
exec '{}' "$@"
"""
LINKER = """#!/bin/sh
'{}' "$@" || exit
while [ $# -gt 1 ]; do
  if [ "$1" = -o ]; then cp "$2" '{}'; fi
  shift
done
"""


def without_sanitizer(made, program):
    """The same toolchain without AddressSanitizer, whose memory no library can refuse. Its `rt try` leaves the program in
    that file."""
    rt = optimizing(made)
    (made / "c").unlink()
    links(made / "c", kit() / "c", ("asan.a",))
    subprocess.run(["ar", "rc", made / "c/asan.a"], check=True)
    for name, script, words in (("clang", PLAIN_COMPILER, ()), ("ld.lld", LINKER, (program,))):
        path = made / "toolchain/bin" / name
        path.unlink()
        path.write_text(script.format(kit() / "toolchain/bin" / name, *words))
        path.chmod(0o755)
    return rt
