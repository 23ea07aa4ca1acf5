"""The version of the tools: its number, the commit, the toolchain, and whether the program is proved."""
import os
import subprocess
import sys

from parts import kit


def first_line(words):
    try:
        ran = subprocess.run(words, capture_output=True, text=True, check=False, cwd=kit.ROOT)
        return ran.stdout.split("\n")[0].strip() if ran.returncode == 0 else ""
    except OSError:
        return ""


def of(name):
    """The line of a command."""
    release = kit.release()
    if release:
        commit, toolchain, proved = release.get("commit"), release.get("toolchain"), release.get("proved")
    else:
        commit = first_line(["git", "rev-parse", "--short=12", "HEAD"]) if os.path.exists(os.path.join(kit.ROOT, ".git")) else None
        toolchain, proved = first_line(["rt", "version"]).split(" ")[0], kit.proved_program()
    parts = [f"commit {commit}" if commit else None, toolchain or None, "the proved program" if proved else "no proved program is built here"]
    return f"{name} {(release or {}).get('version', kit.VERSION)} ({', '.join(part for part in parts if part)})"


if __name__ == "__main__":
    try:
        print(of(sys.argv[1]))
    except kit.NoKit as failed:
        sys.exit(str(failed))
