"""What scripts/try/features, scripts/try/rust_crate and scripts/try/original_tests share: folders of crates that cargo takes in
the place of crates.io, as `cargo vendor` makes them, and packages that are built of them over bindings/cargo-manifest."""
import os
from pathlib import Path

from .archive import archive_alone
from .commands import run
from .repository import BINDINGS, manifest_of

# where Debian's librust-serde-dev, librust-serde-json-dev and librust-toml-dev put their crates
DEBIAN = Path("/usr/share/cargo/registry")
# the features of bindings/cargo-manifest, each with what it wants of the version of toml
TOML = {"toml": ">=0.5.11, <0.10", "toml_1": "1"}
DERIVE = '{ version = "1", features = ["derive"] }'


def folders(named):
    """The folders of crates that are named, or those of the variable CRATES, between colons, or else Debian's."""
    named = named or [name for name in os.environ.get("CRATES", "").split(":") if name] or [DEBIAN]
    return [Path(name).resolve() for name in named]


def versions(folder, name):
    """The versions of a crate in a folder of crates, each as a list of its numbers."""
    found = (path.name.removeprefix(f"{name}-") for path in folder.glob(f"{name}-[0-9]*"))
    return sorted([int(number) for number in version.partition("+")[0].split(".")[:3] if number.isdigit()] for version in found)


def toml_features(folder):
    """The features of bindings/cargo-manifest that want a version of toml which is there; none without serde."""
    if not versions(folder, "serde") or not versions(folder, "serde_derive"):
        return []
    there = {"toml": any([0, 5, 11] <= version < [0, 10] for version in versions(folder, "toml"))}
    there["toml_1"] = any([1] <= version < [2] for version in versions(folder, "toml"))
    return [feature for feature, is_there in there.items() if is_there]


def toml_of(crate):
    """What a crate, which lies in a folder, wants of toml."""
    wanted = manifest_of(crate)["dependencies"]["toml"]
    return wanted if isinstance(wanted, str) else wanted["version"]


def source(folder):
    """The words by which cargo takes the crates of a folder."""
    place = f'source.given.directory="{folder}"'
    return ["--offline", "--config", 'source.crates-io.replace-with="given"', "--config", place]


def settings(room, built):
    """What is set for builds in a folder, over the built files of another one: their archive stands there by itself."""
    archive = archive_alone(room, built)
    return {**os.environ, "MANIFEST_FFI": str(archive.parent), "CARGO_TARGET_DIR": str(room / "target")}


def with_features(features):
    """The line of a Cargo.toml by which bindings/cargo-manifest is taken, with these features."""
    words = ", ".join(f'"{feature}"' for feature in features)
    return f'{{ path = "{BINDINGS / "cargo-manifest"}", default-features = false, features = [{words}] }}'


def write_package(place, dependencies, targets, features=()):
    """Makes a package of targets, each a kind with a name and a path, in a new folder."""
    lines = ["[package]", 'name = "over"', 'version = "0.1.0"', 'edition = "2021"', "autobins = false", "", "[workspace]"]
    lines += ["", "[features]", f"default = [{', '.join(f'{chr(34)}{feature}{chr(34)}' for feature in features)}]"]
    lines += [f"{feature} = []" for feature in features]
    lines += ["", "[dependencies]", *(f"{name} = {wanted}" for name, wanted in dependencies.items())]
    for kind, name, path in targets:
        lines += ["", f"[[{kind}]]", f'name = "{name}"', f'path = "{path}"']
    (place / "src").mkdir(parents=True)
    (place / "src" / "lib.rs").touch()
    (place / "Cargo.toml").write_text("\n".join(lines) + "\n", encoding="utf-8")


def cargo(words, place, **more):
    """A run of cargo on the package in a folder."""
    command, *words = words
    return run(["cargo", command, "--manifest-path", place / "Cargo.toml", *words], **more)
