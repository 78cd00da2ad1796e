"""Tries the mutants of Go's binding."""
import re

from bindings.tests.mutants import MutantCase, add_mutants
from dev.crates import cache
from dev.testing import environment, needs_command

NEEDS = {"library"}
PROVED = True


@needs_command("go")
class Mutants(MutantCase):
    def fails(self, mutant):
        settings = environment() | {"GOCACHE": str(cache("bindings") / "go"), "GOFLAGS": "-mod=mod", "GOPROXY": "off",
                                    "CGO_ENABLED": "1", "CGO_CFLAGS": "-O0", "YARIB_VECTORS": str(self.vectors())}
        ended = self.call("go", "test", "-count=1", "-vet=off", "-failfast", "-run", f"^{mutant.noticed_by}$", ".",
                          cwd=self.copy_of("go"), env=settings, timeout=1800)
        return ended.returncode != 0 and re.search(r"^--- FAIL: Test", ended.stdout + ended.stderr, re.M) is not None


add_mutants(Mutants, "go")
