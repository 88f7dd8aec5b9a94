"""What scripts/try/check tries of memory: each request for memory of manifest_check is refused in turn."""
import shutil
import subprocess
from pathlib import Path

from .check_program import Case, environment
from .repository import SCRIPTS
from .tries import not_run, told

# a manifest of which several things are said, with notes, labels and suggestions
WRONG = """[package]
name = "a b"
version = "1.0"
edition = "2021"
opt_level = 3

[dependencies]
serde = "x.y"

[features]
f = ["nope", "dep:serd"]

[profile.dev]
panic = "unwin"
"""


def refusing(room):
    """The library that refuses a request for memory, once it is preloaded; None where there is no compiler."""
    compiler = shutil.which("cc")
    if compiler is None:
        not_run("manifest_check with requests for memory refused", "there is no command cc")
        return None
    made = room / "refuse_growth.so"
    words = [compiler, "-O1", "-fPIC", "-fno-builtin", "-shared", "-nostdlib", "-o", made, SCRIPTS / "try/refuse_growth.c"]
    subprocess.run(words, check=True)
    return made


# around it: the root of its workspace, a package that it depends on, a configuration, and the files of its targets
AROUND = {
    "Cargo.toml": "[workspace]\nmembers = ['a', 'b*']\n[workspace.package]\nversion = '1.0.0'\n",
    ".cargo/config.toml": "[registries.other]\nindex = 'https://example.com/index'\n",
    "a/src/lib.rs": "",
    "a/src/bin/c.rs": "",
    "a/examples/d/main.rs": "",
    "b1/Cargo.toml": "[package]\nname = 'b'\nversion.workspace = true\n",
    "b1/src/lib.rs": "",
}
FILES = AROUND | {"a/Cargo.toml": WRONG.replace('serde = "x.y"', 'serde = "x.y"\nb = { path = "../b1", registry = "other" }')}
# of the package alone, over standard input, and of all, read from files
TRIED = {
    **{form: ["--format", form, "--no-workspace", "--no-config", "-"] for form in ("json", "short", "github")},
    "json, with what is around": ["--format", "json", "a"],
    "what is shown, with what is around": ["show", "--format", "json", "a"],
}


def run(case, words, more):
    """A run in the folder, with the manifest alone on its standard input, and with more in its environment."""
    settings = {"cwd": case.folder, "input": WRONG.encode(), "env": environment(**more), "capture_output": True, "timeout": 60}
    return subprocess.run([case.program, *words], check=False, **settings)


def try_refused_memory(program, room):
    """Where memory runs out, what is written is whole, with the status of the whole, or it ends where memory ran out, with
    another status."""
    shim = refusing(room)
    if shim is None:
        return
    case, was_refused = Case(program, room, "memory"), Path(room, "refused")
    for path, text in FILES.items():
        case.write(path, text)
    for name, words in TRIED.items():
        wanted, number, wrong = run(case, words, {}), 1, []
        while True:
            was_refused.unlink(missing_ok=True)
            more = {"REFUSE_GROWTH": str(number), "REFUSE_GROWTH_TOLD": str(was_refused), "LD_PRELOAD": str(shim)}
            ran = run(case, words, more)
            if not was_refused.exists():
                break
            is_whole = ran.returncode == wanted.returncode
            if not (ran.stdout == wanted.stdout if is_whole else wanted.stdout.startswith(ran.stdout)):
                wrong.append(f"request {number}: status {ran.returncode}, {len(ran.stdout)} bytes")
            number += 1
        told(f"memory {name}", "\n".join(wrong) or (None if number > 100 else "no request was refused"))
    case.remove()
