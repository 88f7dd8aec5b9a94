"""What scripts/gate/wrong_bodies and scripts/measure/proofs share: how the prover is called for a crate."""
import subprocess
from pathlib import Path

from .repository import below


def kit_folder():
    """The folder of the toolchain."""
    return Path(subprocess.run(["rt", "doc"], capture_output=True, text=True, check=True).stdout.strip()).parent


def words(top, kit, crates, crate):
    """The words of `rattle check` for a crate, over the libraries that are built."""
    kind, names = crates[crate]
    root = "src/main.rt" if (top / "crates" / crate / "src/main.rt").exists() else "src/lib.rt"
    said = ["--crate-name", crate, root, "-L", f"dependency={kit}/rlibs", "--links", f"{crate}=", "--jobs", "1"]
    said += ["--antt-project", f"{kit}/rattle/logic/antt-project.json", "--logic-built", f"{kit}/logic_built"]
    for name in ["std", *names]:
        place = f"{top}/crates/{name}/out/rlib" if name in crates else f"{kit}/rlibs"
        said += ["--extern", f"{name}={place}/{name}.rlib"]
    for name in sorted(below(crates, crate)):
        said += ["-L", f"dependency={top}/crates/{name}/out/rlib"]
    return said + ["--crate-type", "staticlib"] * ("staticlib" in kind)
