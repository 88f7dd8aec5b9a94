"""Copies of the repository, as scripts/ship/packages and scripts/ship/readme try them."""
import os
import shutil
import subprocess

from .repository import TOP, own_files


def copy_repository(folder, built):
    """The files of this repository as they are now, committed or not, in a folder, with the built files of another folder in
    prebuilt/."""
    for name in own_files(TOP, also_new=True):
        if os.path.lexists(TOP / name):
            (folder / name).parent.mkdir(parents=True, exist_ok=True)
            shutil.copy(TOP / name, folder / name, follow_symlinks=False)
    shutil.rmtree(folder / "prebuilt", ignore_errors=True)
    shutil.copytree(built, folder / "prebuilt", ignore=shutil.ignore_patterns("prove.*"))
    settings = {**os.environ, "PYTHONDONTWRITEBYTECODE": "1"}
    subprocess.run([folder / "scripts" / "text" / "copies"], env=settings, check=True)


def run_git(folder, *words):
    """Runs git in a folder, without the settings of the one who runs this."""
    kept = {name: value for name, value in os.environ.items() if not name.startswith("GIT_")}
    own = {"GIT_CONFIG_GLOBAL": os.devnull, "GIT_CONFIG_NOSYSTEM": "1"}
    author = ["-c", "user.name=a", "-c", "user.email=a@example.org"]
    subprocess.run(["git", *author, *words], cwd=folder, env={**kept, **own}, check=True)


def commit(folder):
    """Makes a repository of git of a folder."""
    for words in (["init", "--quiet"], ["add", "--all"], ["commit", "--quiet", "--message", "all of it"]):
        run_git(folder, *words)
