"""Manual pages of the converters and the maps, and what packaging/library_manual shares with them."""
import ast
import os
import pathlib
import re
import subprocess
import tempfile

from dev.versions import VERSION


def quoted(text):
    """Returns a text for roff, as it is."""
    return re.sub(r"^([.'])", r"\\&\1", text.replace("\\", "\\e").replace("-", "\\-"), flags=re.M)


def manual(script):
    """Returns the manual page of a converter or a map: its help text."""
    name = f"yarib-{script.name}"
    with tempfile.TemporaryDirectory() as folder:
        called = pathlib.Path(folder) / name
        called.symlink_to(script)
        said = subprocess.run([called, "--help"], stdout=subprocess.PIPE, text=True, check=True,
                              env=os.environ | {"COLUMNS": "79", "PYTHONDONTWRITEBYTECODE": "1"}).stdout
    about = ast.get_docstring(ast.parse(script.read_text())).split("\n")[0].rstrip(":. ").removesuffix(" Usage").rstrip(".")
    return (f'.TH {name.upper()} 1 "" "yarib {VERSION}" "User commands"\n.SH NAME\n{quoted(name)} \\- {quoted(about)}\n'
            f".SH DESCRIPTION\n.nf\n{quoted(said)}.fi\n.SH SEE ALSO\n.BR yarib (1),\n/usr/share/doc/yarib\n")
