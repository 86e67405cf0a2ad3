"""A library that stands before the C library's, made by the kit's own compiler and linker. `.ci/refusals` and `.ci/gateways` run programs with one."""
import subprocess
from pathlib import Path


def library_in(room, name, source):
    """The library of this C source, in this folder. It may call the C library, and includes nothing."""
    kit = Path(subprocess.run(["rt", "doc"], capture_output=True, text=True, check=True).stdout.split()[-1]).resolve().parent
    while not (kit / "toolchain/bin/clang").exists():
        kit = kit.parent
    text, made, library = (Path(room, name + it) for it in (".c", ".o", ".so"))
    text.write_text(source)
    subprocess.run([kit / "toolchain/bin/clang", "-O1", "-fPIC", "-c", text, "-o", made], check=True)
    subprocess.run([kit / "toolchain/bin/ld.lld", "-shared", made, "-o", library], check=True)
    return library
