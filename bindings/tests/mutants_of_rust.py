"""Runs a test of Rust's binding on a mutant of it."""
import re

from bindings.tests.library import library
from bindings.tests.mutants import MutantCase
from dev.testing import environment, needs_command


@needs_command("cargo")
class RustMutants(MutantCase):
    def fails(self, mutant):
        copy, (file, name) = self.copy_of("rust"), mutant.noticed_by.split()
        settings = environment() | {
            "YARIB_LIB": str(library()), "YARIB_VECTORS": str(self.vectors()), "CARGO_TARGET_DIR": str(copy / "target"),
            "CARGO_INCREMENTAL": "1", "CARGO_PROFILE_DEV_DEBUG": "0", "CARGO_BUILD_JOBS": "1"}
        ended = self.call("cargo", "test", "--offline", "--quiet", "--test", file, "--", "--exact", name, cwd=copy,
                          env=settings, timeout=1800)
        return ended.returncode != 0 and re.search(r"^test result: FAILED", ended.stdout, re.M) is not None
