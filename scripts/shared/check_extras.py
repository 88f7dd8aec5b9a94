"""What goes with the program manifest_check: the man page, the completions, the problem matcher and the hooks of pre-commit."""
import json
import re
import shlex
import shutil
import subprocess

from .check_program import ITSELF, SPELLING, Case, package
from .repository import TOP
from .tries import not_run, told

EXTRA = TOP / "extra" / "manifest_check"
PAGE = TOP / "docs" / "manifest_check.1"
# options as help shows them, as zsh and fish take them, and as the man page writes them
IN_HELP = re.compile(r"^ +(?:-(?P<short>\w), |)--(?P<long>[a-z-]+)", re.M)
IN_TEXT = re.compile(r"(?<![\w-])--([a-z][a-z-]+)")
IN_FISH = re.compile(r"^complete .*? -l ([a-z-]+)", re.M)
# the words of a command line, and words that completion has to offer, or all of them where it may offer no others
COMPLETED = [
    (["--for"], {"--format"}, True), (["--format", ""], {"people", "short", "json", "github", "sarif"}, True),
    (["--format", "=", "s"], {"short", "sarif"}, True), (["--format", "="], {"people", "json"}, False),
    (["--color", "a"], {"auto", "always"}, True), (["--deny", "unknown-k"], {"unknown-key"}, True),
    (["--allow", "al"], {"all"}, True), (["--explain", "nests"], {"nests-too-deep"}, True),
    (["show", "--format", ""], {"people", "json", "html"}, True), (["show", "-"], {"--format", "--help"}, True),
    (["canon", "--c"], {"--check"}, True), ([""], {"show", "canon", "lsp", "help", "Cargo.toml"}, False),
    (["--publish", "--no"], {"--no-workspace", "--no-config"}, True), (["Carg"], {"Cargo.toml"}, True),
]


def options_of(program):
    """The long options of the program and of its commands."""
    helps = ([program, *words, "--help"] for words in ([], ["show"], ["canon"], ["lsp"]))
    said = (subprocess.run(words, capture_output=True, text=True).stdout for words in helps)
    return {found["long"] for text in said for found in IN_HELP.finditer(text)}


def try_options(program):
    """The man page and the completions have the options of the program, and no others."""
    options = options_of(program)
    texts = {name: (EXTRA / name).read_text(encoding="utf-8") for name in (
        "manifest_check.bash", "_manifest_check", "manifest_check.fish")}
    page = PAGE.read_text(encoding="utf-8").replace("\\-", "-")
    code = {name: "\n".join(line for line in text.splitlines() if not line.startswith("#")) for name, text in texts.items()}
    found = {
        "manifest_check.bash": set(IN_TEXT.findall(code["manifest_check.bash"])) - {"fixed-strings"},
        "_manifest_check": set(IN_TEXT.findall(code["_manifest_check"])),
        "manifest_check.fish": set(IN_FISH.findall(code["manifest_check.fish"])), PAGE.name: set(IN_TEXT.findall(page)),
    }
    for name, there in found.items():
        told(f"the options of {name}", None if there == options else f"{sorted(there ^ options)}")
    if shutil.which("groff"):
        said = subprocess.run(["groff", "-man", "-ww", "-z", PAGE], capture_output=True, text=True)
        told("the man page", said.stderr or None)
    else:
        not_run("the man page of manifest_check", "there is no command groff")


def try_completions(program, room):
    """What bash offers for words; and whether zsh and fish read their files."""
    case = Case(program, room, "completions", package(SPELLING))
    for words, wanted, is_all in COMPLETED:
        line = shlex.join(["manifest_check", *words])
        script = (
            f'PATH={shlex.quote(str(program.parent))}:$PATH; source {shlex.quote(str(EXTRA / "manifest_check.bash"))}; '
            f"COMP_WORDS=({line}); COMP_CWORD={len(words)}; _manifest_check; printf '%s\\n' \"${{COMPREPLY[@]}}\""
        )
        said = subprocess.run(["bash", "-c", script], cwd=case.folder, capture_output=True, text=True)
        offered = set(said.stdout.split())
        is_right = offered == wanted if is_all else wanted <= offered
        told(f"bash completes {line}", None if is_right and not said.stderr else f"{said.stdout}{said.stderr}")
    for shell, words, name in (("zsh", ["-n"], "_manifest_check"), ("fish", ["--no-execute"], "manifest_check.fish")):
        if not shutil.which(shell):
            not_run(f"the completions for {shell}", f"there is no command {shell}")
            continue
        said = subprocess.run([shell, *words, EXTRA / name], capture_output=True, text=True)
        told(f"{shell} reads its completions", None if said.returncode == 0 and not said.stderr else said)


def try_matcher(program, room):
    """The problem matcher takes apart what the program prints."""
    matcher = json.loads((EXTRA / "problem-matcher.json").read_text(encoding="utf-8"))["problemMatcher"][0]["pattern"][0]
    case = Case(program, room, "matcher", {
        **package(ITSELF, "a: b/"), **package(SPELLING, "c/"), "d/Cargo.toml": "x = 1\n"})
    for line in case.run("--format", "short").stdout.decode().splitlines():
        found = re.match(matcher["regexp"], line)
        parts = found and [found[matcher[part]] for part in ("file", "line", "column", "severity", "code", "message")]
        is_right = parts and "{}:{}:{}: {}[{}]: {}".format(*parts) == line and parts[0].endswith("Cargo.toml")
        told(f"the matcher on {line}", None if is_right else f"{parts}")


def try_yaml():
    """The hooks of pre-commit and the example of an action are YAML, with the keys that are needed."""
    try:
        import yaml
    except ImportError:
        return not_run("the hooks of pre-commit and the example of an action", "Python has no package yaml")
    hooks = yaml.safe_load((TOP / ".pre-commit-hooks.yaml").read_text(encoding="utf-8"))
    for hook in hooks:
        entry = TOP / hook["entry"]
        is_right = hook["language"] == "script" and entry.stat().st_mode & 0o100 and re.search(hook["files"], "a/Cargo.toml")
        told(f"the hook {hook['id']}", None if is_right else f"{hook}")
    action = yaml.safe_load((EXTRA / "github.yml").read_text(encoding="utf-8"))
    steps = action["jobs"]["manifests"]["steps"]
    told("the example of an action", None if all(("uses" in step) != ("run" in step) for step in steps) else f"{steps}")


def try_extras(program, room):
    """All of it."""
    try_options(program)
    try_completions(program, room)
    try_matcher(program, room)
    try_yaml()
