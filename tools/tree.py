"""The files of the repository, at a commit or as they stand."""
import subprocess

ROOT = subprocess.run(["git", "rev-parse", "--show-toplevel"], capture_output=True, text=True).stdout.strip()


def git(*words):
    return subprocess.run(["git", "-C", ROOT, *words], capture_output=True, text=True).stdout


def files(commit, wanted):
    """Names and texts of the files below crates/ whose names are wanted, in order; without a commit, of the working tree."""
    listed = git("ls-tree", "-r", "--name-only", commit, "crates") if commit else git("ls-files", "-co", "--exclude-standard", "crates")
    for name in sorted(set(listed.split())):
        if not wanted(name):
            continue
        if commit:
            yield name, git("show", f"{commit}:{name}")
            continue
        try:
            with open(f"{ROOT}/{name}") as file:
                yield name, file.read()
        except FileNotFoundError:
            continue
