"""Builds the extension module `borrowing` for the Python that runs this, in a folder: by default here."""
import subprocess
import sys
import sysconfig
from pathlib import Path

HERE = Path(__file__).resolve().parent


def build(folder: Path) -> Path:
    """The module's file, built."""
    module = folder / f"borrowing{sysconfig.get_config_var('EXT_SUFFIX')}"
    include = sysconfig.get_paths()["include"]
    subprocess.run(["cc", "-shared", "-fPIC", "-O1", f"-I{include}", HERE / "borrowing.c", "-o", module], check=True)
    return module


if __name__ == "__main__":
    print(build(Path(sys.argv[1]) if len(sys.argv) > 1 else HERE))
