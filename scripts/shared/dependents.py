"""What scripts/ship/packages and scripts/ship/pack share: cargo as on a machine that has no network and never built anything,
and small programs that depend on the packages of bindings/rust and bindings/cargo-manifest."""
import os
import subprocess
from pathlib import Path
from typing import NamedTuple

PROVED = "cargo-manifest-proved"
ORIGINAL = "cargo-manifest"
# what each program prints for each of the packages that it calls
PRINTED = '[package]\nname = "a"\n'
CALLED = """
    let manifest: {name}::Manifest = "name = 'a'".parse().unwrap();
    print!("{{}}", manifest.to_toml_string().unwrap());
"""
# what a user's settings must not change here
UNSET = ("CARGO_", "RUSTC", "RUSTFLAGS", "RUSTDOC", "RUST_BACKTRACE", "RUST_LOG", "MANIFEST_FFI", "GIT_")
# (no debug information takes half of the time; at this address nobody answers)
SET = {
    "CARGO_INCREMENTAL": "0",
    "CARGO_PROFILE_DEV_DEBUG": "0",
    "CARGO_TERM_COLOR": "never",
    "CARGO_NET_RETRY": "0",
    "CARGO_HTTP_PROXY": "http://127.0.0.1:9",
    "GIT_CONFIG_GLOBAL": os.devnull,
    "GIT_CONFIG_NOSYSTEM": "1",
}


class Dependency(NamedTuple):
    """A dependency of a program: its line in Cargo.toml, and by which name the program calls it."""

    line: str
    name: str


def proved(source, name="cargo_manifest"):
    """The package of bindings/rust from a source, as `path = ".."`, by its own name or by another one."""
    if name == "cargo_manifest":
        return Dependency(f"{PROVED} = {{ {source} }}", name)
    return Dependency(f'{name} = {{ package = "{PROVED}", {source} }}', name)


def original(source='version = "0.20"', features=False):
    """The package of bindings/cargo-manifest, by the line of a program that depends on the crate cargo-manifest."""
    more = "" if features else ", default-features = false"
    return Dependency(f"{ORIGINAL} = {{ {source}{more} }}", "cargo_manifest")


def write_program(folder, dependencies, patch=None, more=""):
    """A program that calls each of these packages. `patch` is where cargo finds cargo-manifest instead, and `more` is added to
    its code."""
    lines = ["[package]", 'name = "program"', 'edition = "2021"', "", "[workspace]", "", "[dependencies]"]
    lines += [dependency.line for dependency in dependencies]
    if patch:
        lines += ["", "[patch.crates-io]", f"{ORIGINAL} = {{ {patch} }}"]
    code = "".join(CALLED.format(name=dependency.name) for dependency in dependencies)
    (folder / "src").mkdir(parents=True)
    (folder / "Cargo.toml").write_text("\n".join(lines) + "\n", encoding="utf-8")
    (folder / "src" / "main.rs").write_text(f"fn main() {{{code}{more}}}\n", encoding="utf-8")
    return folder


class User:
    """A user whose home of cargo, in a folder of its own, is empty at first."""

    def __init__(self, folder):
        self.folder = Path(folder)
        self.home = self.folder / "cargo-home"
        self.home.mkdir(parents=True)
        self.target = self.folder / "target"

    def cargo(self, folder, *words, **settings):
        """One run of cargo in a folder."""
        kept = {name: value for name, value in os.environ.items() if not name.startswith(UNSET)}
        own = {"CARGO_HOME": str(self.home), "CARGO_TARGET_DIR": str(self.target)}
        settings = {**kept, **SET, **own, **settings}
        return subprocess.run(
            ["cargo", *words], cwd=folder, env=settings, capture_output=True, text=True, timeout=600, stdin=subprocess.DEVNULL
        )


def fault_of(done):
    """What is wrong with a run that has to end with status 0, or None."""
    return None if done.returncode == 0 else f"status {done.returncode}\n{done.stdout}{done.stderr}"


def fault_of_program(user, folder, *words, printed=PRINTED):
    """What is wrong where a program is built without network and has to print this; or None."""
    done = user.cargo(folder, "run", "--quiet", "--offline", *words)
    if done.returncode == 0 and done.stdout == printed:
        return None
    return f"status {done.returncode}, {done.stdout!r} where {printed!r} is due\n{done.stderr}"
