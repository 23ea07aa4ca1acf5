"""The program, or the C library, compiled without its proofs: once for the same sources, and then kept.

The toolchain's `rt try` compiles a program without its proofs, runs it once and keeps nothing. Here it is run with a
folder of links in the toolchain's place, whose compiler hands out what it is given; that is compiled and linked as
`rt run` does, with the checks of `rt try` left in: a program that goes wrong stops there. Beside it `rt try` has the
prover look for reserved names, which takes as long as all the rest, and which the gate tells as well: in the folder of
links the prover is a command that does nothing.
"""
import contextlib
import fcntl
import os
import re
import shutil
import signal
import subprocess
import sys
import tempfile
import threading
import time

from parts import kit as kits
from parts.sums import LIBRARY, PROGRAM, SECOND, name_of_library, name_of_programs, sum_of
from parts.words import heed_signals

# How many compiled programs are kept, those of tests among them.
MOST_KEPT = 80
# Before the first run the compiler is asked for something small; the program itself has megabytes.
SMALL = 100_000
COMPILER = """#!/bin/bash
for word in "$@"; do
  case "$word" in
    *.bc) if [ -f "$word" ] && [ "$(stat -c %s "$word")" -gt {small} ]; then cp "$word" {room}/module.bc; exit 1; fi ;;
  esac
done
exec {kit}/toolchain/bin/clang "$@"
"""
HOW = ("--target=x86_64-unknown-linux-gnu", "-march=x86-64", "-Wno-everything", "-mllvm", "-no-trap-after-noreturn",
       "-mllvm", "-trap-unreachable", "-O1", "-ffunction-sections", "-fdata-sections", "-c", "-x", "ir")


class Failed(Exception):
    """Why nothing was compiled, in a line or more."""


class Unable(Failed):
    """The same, where no fault of the sources is told: a compiler was ended, or memory or the disk is full."""


# What the compiler says of a fault of the sources.
FAULT = re.compile(r"^\S+\.rt:\d+:\d+: error", re.M)


class Clock:
    """Tells how long something takes: on a terminal each second, elsewhere in a line each minute."""

    MINUTE = 60

    def __init__(self, what, stream=None):
        self.what = what
        self.stream = stream or sys.stderr
        self.ended = threading.Event()

    def __enter__(self):
        self.start = time.monotonic()
        self.thread = None
        if kits.is_quiet():
            return self
        if not self.stream.isatty():
            print(self.what, file=self.stream, flush=True)
        self.thread = threading.Thread(target=self.run, daemon=True)
        self.thread.start()
        return self

    def seconds(self):
        return f"{time.monotonic() - self.start:.0f} s"

    def run(self):
        is_terminal = self.stream.isatty()
        while not self.ended.wait(1 if is_terminal else self.MINUTE):
            self.stream.write(f"\r\033[K{self.what}: {self.seconds()}" if is_terminal else f"{self.what}: {self.seconds()} so far\n")
            self.stream.flush()

    def __exit__(self, *_):
        self.ended.set()
        if self.thread:
            self.thread.join()
        if self.thread and self.stream.isatty():
            self.stream.write(f"\r\033[K{self.what}: took {self.seconds()}\n")
            self.stream.flush()


@contextlib.contextmanager
def alone(name, told):
    """While this goes on no other call compiles what has this name; one that does is waited for."""
    os.makedirs(kits.KEPT, mode=0o700, exist_ok=True)
    with open(os.path.join(kits.KEPT, f"{name}.lock"), "w", encoding="utf-8") as file:
        try:
            fcntl.flock(file, fcntl.LOCK_EX | fcntl.LOCK_NB)
        except BlockingIOError:
            with Clock(f"{told}: another call compiles {name}; this one waits for it"):
                fcntl.flock(file, fcntl.LOCK_EX)
        yield


def link_all(source, target):
    """Links all that stands in a folder into another."""
    os.makedirs(target, exist_ok=True)
    for name in os.listdir(source):
        place = os.path.join(target, name)
        if not os.path.lexists(place):
            os.symlink(os.path.join(source, name), place)


def kit_of_links(kit, room):
    """A toolchain of links whose compiler hands out what it is given."""
    made = os.path.join(room, "kit")
    for folder in ("toolchain/bin", "bin"):
        os.makedirs(os.path.join(made, folder))
    compiler = os.path.join(made, "toolchain", "bin", "clang")
    with open(compiler, "w", encoding="utf-8") as file:
        file.write(COMPILER.format(small=SMALL, room=room, kit=kit))
    prover = os.path.join(made, "bin", "rattle")
    with open(prover, "w", encoding="utf-8") as file:
        file.write("#!/bin/sh\n")
    for name in (compiler, prover):
        os.chmod(name, 0o755)
    for name in ("rt", "rtlib.py"):
        shutil.copy(os.path.join(kit, "bin", name), os.path.join(made, "bin", name))
    for folder in ("toolchain/bin", "toolchain", "bin", ""):
        link_all(os.path.join(kit, folder), os.path.join(made, folder))
    return made


# What runs, and the folders that it writes into.
RUNNING, ROOMS = set(), set()


@contextlib.contextmanager
def a_room():
    """A folder for what is made on the way."""
    with tempfile.TemporaryDirectory(prefix="joravelsu-") as room:
        ROOMS.add(room)
        try:
            yield room
        finally:
            ROOMS.discard(room)


def end_all():
    """Ends all that was started and runs, and removes what it made on the way."""
    for started in list(RUNNING):
        try:
            os.killpg(started.pid, signal.SIGTERM)
        except ProcessLookupError:
            pass
    for room in list(ROOMS):
        shutil.rmtree(room, ignore_errors=True)


def ran(words, **how):
    """Runs a command in a group of its own, which ends with this program."""
    started = subprocess.Popen(words, start_new_session=True, stdout=subprocess.PIPE, stderr=subprocess.STDOUT, errors="replace", **how)
    RUNNING.add(started)
    try:
        said, _ = started.communicate()
    except BaseException:
        os.killpg(started.pid, signal.SIGTERM)
        started.wait()
        raise
    finally:
        RUNNING.discard(started)
    return started.returncode, said


def module_of(crate, kit, room, root, is_test=False):
    """What the toolchain makes of a program, or of a crate's tests, before it compiles it to machine code."""
    empty = os.path.join(room, "empty")
    with open(empty, "wb") as file:
        file.write(b'{"roots":[],"modules":[]}')
    words = [sys.executable, os.path.join(kit_of_links(kit, room), "bin", "rt"), "try", "--steps", "1"]
    words += ["--test"] if is_test else ["--", "build"]
    with open(empty, "rb") as file:
        _, said = ran(words, cwd=os.path.join(root, "crates", crate), stdin=file, env={**os.environ, "TMPDIR": room, "PYTHONDONTWRITEBYTECODE": "1"})
    made = os.path.join(room, "module.bc")
    if not os.path.exists(made):
        raise (Failed if FAULT.search(said) else Unable)("\n".join(said.splitlines()[-20:]))
    return made


def object_of(module, kit, room, *more):
    """The machine code of a module."""
    made = os.path.join(room, "module.o")
    status, said = ran([os.path.join(kit, "toolchain", "bin", "clang"), *HOW, *more, module, "-o", made], stdin=subprocess.DEVNULL)
    if status:
        raise Unable("\n".join(said.splitlines()[-20:]))
    return made


def linked(made, kit, room):
    """The program of its machine code."""
    program = os.path.join(room, "program")
    words = [os.path.join(kit, "bin", "rattle-link"), "--target", "x86_64-unknown-linux-gnu", "--toolchain", f"{kit}/toolchain"]
    status, said = ran([*words, "-o", program, made, f"{kit}/c/libos_c.a", f"{kit}/c/liblibc_c.a"], stdin=subprocess.DEVNULL)
    if status:
        raise Unable("\n".join(said.splitlines()[-20:]))
    return program


def used(name):
    """Where a file is kept, which counts as used now, or None."""
    place = kits.kept(name)
    if place:
        os.utime(place)
    return place


def compiled(crate, is_test=False, *more, told="unproved"):
    """The path of a crate's program, or of its tests, compiled where that wasn't done of these sources yet."""
    head = f"{crate}{'-tests' if is_test else ''}{''.join(more)}"
    name = f"{head}-{sum_of(crate)}.unproved"
    place = used(name)
    if place:
        return place
    kit = kits.kit()
    with alone(head, told):
        if used(name):
            return used(name)
        with a_room() as room:
            made = linked(object_of(module_of(crate, kit, room, kits.ROOT, is_test), kit, room, *more), kit, room)
            return kits.keep(made, name, ".unproved", MOST_KEPT)


def is_compiled(crate, is_test=False):
    return kits.kept(f"{crate}{'-tests' if is_test else ''}-{sum_of(crate)}.unproved") is not None


def begin(told):
    """Before something is compiled: a line where the toolchain's version is one that wasn't tried; a signal ends what is started."""
    heed_signals()
    other = kits.other_version()
    if other:
        print(f"{told}: {other}", file=sys.stderr)


# The calls of the C library, as a program calls each once, so that the toolchain compiles it: the program makes them where
# it has more words than a system gives.
CALLS = """
fn call_each(rt: &HostRuntime) {
    let _ = joravelsu_version();
    let mut needed: usize = 0;
    let mut answer = Answer { sites: 0, value_bytes: 0, fault: 0, place: 0 };
    let _ = joravelsu_build(rt.alloc(), b"{}", &mut [], &mut needed);
    let _ = joravelsu_sites(rt.alloc(), b"", 3, &mut [], &mut [], &mut answer);
    let mut told = CallsAnswer { calls: 0, fault: 0, place: 0 };
    let _ = joravelsu_unread(rt.alloc(), b"", &mut [], &mut told);
    let mut made = RewriteAnswer { needed: 0, change: 0, fault: 0, place: 0 };
    let _ = joravelsu_rewrite(rt.alloc(), b"", 3, &[], b"", &mut [], &mut made);
    let mut exported = ExportsAnswer { exports: 0, reexports: 0, value_bytes: 0, fault: 0, place: 0 };
    let _ = joravelsu_exports(rt.alloc(), b"", 3, 0, &mut [], &mut [], &mut exported);
    let mut mentioned = MentionsAnswer { mentions: 0, fault: 0, place: 0 };
    let _ = joravelsu_mentions(rt.alloc(), b"", 3, b"", 0, &mut [], &mut mentioned);
    let mut declared = DeclarationsAnswer { diagnostics: 0, text_bytes: 0, fault: 0, place: 0 };
    let _ = joravelsu_declarations(rt.alloc(), b"", 3, 0, &mut [], &mut [], &mut declared);
    let mut held = graph::nothing();
    let mut wanted = Wanted { number: 0, needed: 0 };
    let mut entry = graph_session::no_entry();
    let mut place = PlaceRecord { line: 0, column: 0 };
    let _ = joravelsu_graph_new(rt.alloc(), b"", &mut held, &mut [], &mut needed);
    let _ = joravelsu_graph_poll(rt.alloc(), &mut held, &mut needed);
    let _ = joravelsu_graph_wanted(rt.alloc(), &mut held, 0, &mut [], &mut wanted);
    let _ = joravelsu_graph_answer(rt.alloc(), &mut held, 0, 0, b"", b"");
    let _ = joravelsu_graph_entry(rt.alloc(), &mut held, 0, &mut [], &mut [], &mut entry);
    let _ = joravelsu_graph_place(rt.alloc(), &mut held, 0, 0, &mut place);
    joravelsu_graph_free(rt.alloc(), &mut held);
}
"""
# Behind this line of the program the calls are made; where it has none, at the front of its main.
BEHIND = "    let words: Vec<String> = words;\n"
NEVER = "    if words.as_slice().len() == 4_000_000_000 {\n        call_each(&rt);\n    }\n"
MAIN = re.compile(r"(?m)^fn main\(rt: HostRuntime\)[^{]*\{\n")
NEVER_IN_MAIN = "    if is_never() {\n        call_each(&rt);\n    }\n"
IS_NEVER = "fn is_never() -> bool {\n    false\n}\n"


def with_calls(main):
    """The program's main with the library's calls, where they are never made."""
    if BEHIND in main:
        return main.replace(BEHIND, BEHIND + NEVER, 1)
    if not MAIN.search(main):
        raise Unable(f"{PROGRAM} has no place for the library's calls")
    return MAIN.sub(lambda found: found[0] + NEVER_IN_MAIN, main, count=1) + IS_NEVER


# What the main of a program does last but one, and what that of both has at its front: which program it is called as.
CALL = re.compile(r"(?m)^    let status = (.*);$")
IS_SECOND = f"""    let words: Result<Vec<String>, AllocError> = match env::args(&rt) {{
        Ok(words) => words.collect(rt.alloc()),
        Err(error) if error.kind() == ErrorKind::OutOfMemory => Err(AllocError),
        Err(_) => Ok(Vec::new(rt.alloc())),
    }};
    let is_second = match words {{
        Ok(words) => words.len() > 0 && words[0].as_str().ends_with("{SECOND}"),
        Err(_) => return ExitCode::from(Status::NoMemory.code()),
    }};
"""


def joined_mains():
    """The mains of both programs as one."""
    first, second = (source(crate, "main.rt").replace("#![tactic(auto)]\n", "") for crate in (PROGRAM, SECOND))
    uses = [line for line in second.split("\n") if line.startswith("use ") and line not in first.split("\n")]
    called = CALL.search(second)[1]
    main = CALL.sub(lambda found: f"    let status = if is_second {{\n        {called}\n    }} else {{\n        {found[1]}\n    }};", first)
    main = MAIN.sub(lambda found: found[0] + IS_SECOND, main, count=1)
    return "\n".join([*uses, re.sub(r"(?m)^//!.*\n", "", main)])


def source(crate, name):
    with open(os.path.join(kits.ROOT, "crates", crate, "src", name), encoding="utf-8") as file:
        return file.read()


def joined_sources(room):
    """A copy of the sources in which the library is a program: this one, which makes each of the library's calls."""
    root, listed = os.path.join(room, "root"), kits.listed_crates()
    below = kits.crates_below(LIBRARY, listed) | kits.crates_below(PROGRAM, listed) | kits.crates_below(SECOND, listed)
    below -= {PROGRAM, SECOND}
    for crate in below:
        shutil.copytree(os.path.join(kits.ROOT, "crates", crate, "src"), os.path.join(root, "crates", crate, "src"))
    at = os.path.join(root, "crates", LIBRARY, "src")
    with open(os.path.join(at, "main.rt"), "w", encoding="utf-8") as file:
        file.write(source(LIBRARY, "lib.rt") + CALLS + with_calls(joined_mains()))
    os.unlink(os.path.join(at, "lib.rt"))
    with open(os.path.join(kits.ROOT, "crates.txt"), encoding="utf-8") as file:
        rows = [line for line in file if line.split(":")[0].split()[:1] and line.split(":")[0].split()[0] in below - {LIBRARY}]
    names = [name for name in dict.fromkeys(listed[LIBRARY] + listed[PROGRAM] + listed[SECOND]) if name != "staticlib"]
    with open(os.path.join(root, "crates.txt"), "w", encoding="utf-8") as file:
        file.writelines([*rows, f"{LIBRARY}: {' '.join(names)}\n"])
    shutil.copy(os.path.join(kits.ROOT, "HANDLES"), root)
    return root


def with_calls_visible(module, kit, room):
    """A module in which the library's calls have their names for C."""
    text = os.path.join(room, "module.ll")
    words = [os.path.join(kit, "toolchain", "bin", "clang"), *HOW[:3], "-S", "-emit-llvm", "-O0", "-Xclang", "-disable-llvm-passes", "-x", "ir"]
    status, said = ran([*words, module, "-o", text], stdin=subprocess.DEVNULL)
    if status:
        raise Unable(said[-2000:])
    made = os.path.join(room, "calls.ll")
    named = re.compile(rf'@"{LIBRARY}::(joravelsu_[a-z_]+)"')
    with open(text, encoding="latin-1") as given, open(made, "w", encoding="latin-1") as file:
        for line in given:
            if LIBRARY in line:
                line = named.sub(r"@\1", line)
                if line.startswith("define internal ") and "@joravelsu_" in line:
                    line = line.replace("internal ", "", 1)
            file.write(line)
    return made


def compile_both(told):
    """The program and the library, compiled in one go and kept."""
    begin(told)
    kit, programs, library_file = kits.kit(), name_of_programs(), name_of_library()
    with a_room() as room, Clock(f"{told}: the program and the library are compiled without their proofs, once, in some three minutes"):
        module = module_of(LIBRARY, kit, room, joined_sources(room))
        kits.keep(linked(object_of(module, kit, room), kit, room), programs, ".unproved", MOST_KEPT)
        kits.keep(object_of(with_calls_visible(module, kit, room), kit, room, "-fPIC"), library_file, ".unproved.o")


def program(told="unproved"):
    """The path of the unproved programs, compiled where that wasn't done of these sources yet."""
    return made(name_of_programs(), told)


def library(told="build-library"):
    """The path of the object file of the unproved library, compiled where that wasn't done of these sources yet."""
    return made(name_of_library(), told)


def made(name, told):
    if used(name):
        return used(name)
    with alone("joravelsu", told):
        if not used(name):
            compile_both(told)
    if not used(name):
        raise Failed("its sources changed meanwhile: call again")
    return used(name)


def main():
    heed_signals()
    try:
        if sys.argv[1:] == ["--library"]:
            print(library())
            return 0
        print((kits.release() or {}).get("program") or program("graph_tool"))
        kits.say_unproved("graph_tool")
    except (Failed, kits.NoKit, OSError) as failed:
        print(f"graph_tool: {failed}", file=sys.stderr)
        return 70
    except KeyboardInterrupt:
        print("graph_tool: stopped", file=sys.stderr)
        return 130
    return 0


if __name__ == "__main__":
    sys.exit(main())
