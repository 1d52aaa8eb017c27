"""The run that landed last: the revision of the last run of the gate on this machine in which nothing failed, and the counts
of its steps."""
import json
import os
import subprocess

FILE = f"{os.environ.get('XDG_CACHE_HOME') or os.path.expanduser('~/.cache')}/barleynight-landed"


def git(top, *words):
    """Returns the output of git in a tree; nothing if it fails."""
    run = subprocess.run(["git", "-C", top, *words], capture_output=True, text=True, check=False)
    return "" if run.returncode else run.stdout.strip()


def is_changed(top):
    """Whether a tree's files aren't those of its last revision."""
    return bool(git(top, "status", "--porcelain"))


def last():
    """The revision that landed last, and what each step counted."""
    try:
        with open(FILE, encoding="utf-8") as file:
            told = json.load(file)
        return told["revision"], told["counted"]
    except (OSError, ValueError, KeyError, TypeError):
        return "", {}


def before(top):
    """Returns the revision with which a tree is compared: the one that landed last, if the tree is built on it; else its
    last revision if its files were changed, or the one before."""
    revision = last()[0]
    head = git(top, "rev-parse", "HEAD")
    if revision and revision != head and git(top, "merge-base", revision, head) == revision:
        return revision
    return "HEAD" if is_changed(top) else "HEAD^"


def keep(top, counted):
    """Keeps what a run counted that passed, of a tree whose files are those of its last revision."""
    if is_changed(top):
        return
    os.makedirs(os.path.dirname(FILE), exist_ok=True)
    with open(f"{FILE}.{os.getpid()}", "w", encoding="utf-8") as file:
        json.dump({"revision": git(top, "rev-parse", "HEAD"), "counted": counted}, file)
    os.replace(f"{FILE}.{os.getpid()}", FILE)
