"""Building the C program, running a program as the toolchain runs it, and the time that it takes."""
import os
import platform
import shutil
import statistics
import subprocess
import sys
import tempfile

HERE = os.path.dirname(os.path.abspath(__file__))
TOP = os.path.join(HERE, "..")
TARGET = "x86_64-unknown-linux-gnu"
C_FLAGS = ["-std=c11", "-Wall", "-Wextra", "-fPIE", "-march=x86-64"]


def stop(message):
    sys.exit(f"{os.path.basename(sys.argv[0])}: {message}")


# ---- the toolchain ----

def kit():
    """The folder of the toolchain: RATTLE_HOME, or where `rt` stands."""
    home = os.environ.get("RATTLE_HOME")
    if not home:
        rt = shutil.which("rt") or stop("no `rt` on the path: the Rattle toolchain is needed")
        home = os.path.join(os.path.dirname(os.path.realpath(rt)), "..")
    return os.path.abspath(home)


def own():
    """What the toolchain has for this kind of machine: a folder of its own, or the toolchain's."""
    apart = os.path.join(kit(), "on", platform.machine())
    return apart if os.path.isdir(apart) else kit()


def run_by():
    """The words before a program's name: the loader and the C library of the toolchain, and on another
    processor than x86-64 its emulator."""
    tools = os.path.join(own(), "toolchain")
    loader = os.path.join(tools, "lib", "ld-linux-x86-64.so.2")
    emulator = os.path.join(tools, "bin", "qemu-x86_64")
    words = [loader, "--library-path", os.path.join(tools, "lib")]
    return [emulator] + words if os.access(emulator, os.X_OK) else words


def emulated():
    return "qemu" in run_by()[0]


# The emulator works byte by byte through `rep stosb` and `rep movsb`, which a processor does not. The C
# library uses them for blocks above these sizes; both programs are run without them.
NO_REP = "glibc.cpu.x86_rep_stosb_threshold=1000000000:glibc.cpu.x86_rep_movsb_threshold=1000000000"


def surroundings(as_rt):
    """The environment of a program; as_rt: nothing is set that `rt` does not set."""
    kept = {name: value for name, value in os.environ.items() if not name.startswith("QEMU_")}
    if emulated() and not as_rt:
        kept["GLIBC_TUNABLES"] = NO_REP
    return kept


# ---- the C program ----

def gcc():
    """A GCC for x86-64, with the C library's headers."""
    names = ["x86_64-linux-gnu-gcc"] + (["gcc"] if platform.machine() == "x86_64" else [])
    for name in names:
        if shutil.which(name):
            return name
    stop("no GCC for x86-64: install gcc-x86-64-linux-gnu and libc6-dev-amd64-cross")


def header_folders():
    """Where GCC looks for headers: the toolchain's clang has none of its own."""
    said = subprocess.run([gcc(), "-E", "-v", "-x", "c", os.devnull], capture_output=True, text=True, check=True).stderr
    listed = said.split("#include <...> search starts here:")[1].split("End of search list.")[0]
    return listed.split()


def compilers():
    """The two compilers, by the name of their column: the toolchain's clang at -O3, which compiles the
    programs too, and GCC at -O2."""
    clang = os.path.join(own(), "toolchain", "bin", "clang")
    headers = [word for folder in header_folders() for word in ("-isystem", folder)]
    return {"clang -O3": [clang, f"--target={TARGET}", "-O3", "-nostdinc", *headers],
            "gcc -O2": [gcc(), "-O2"]}


def built_c(room, name, words):
    """bench/book.c, compiled for the programs' target and linked as they are."""
    made, program = room.path(f"{name}.o"), room.path(f"book.c by {name}")
    subprocess.run([*words, *C_FLAGS, "-c", "-o", made, os.path.join(HERE, "book.c")], check=True)
    subprocess.run([os.path.join(own(), "bin", "rattle-link"), "--target", TARGET, "--toolchain",
                    os.path.join(own(), "toolchain"), "-o", program, made], check=True, stderr=subprocess.DEVNULL)
    return run_by() + [program]


def c_programs(room):
    """How to run the C program, as each compiler builds it."""
    return {name: built_c(room, name, words) for name, words in compilers().items()}


# ---- the program `book` ----

def is_elf(path):
    with open(path, "rb") as file:
        return file.read(4) == b"\x7fELF"


def book_places(whole):
    """Where the program is looked for: the linked program, and the script `./book` that runs it; whole: the
    script first, as one types it."""
    places = [os.path.join(TOP, "crates", "book", "out", "book"), os.path.join(TOP, "book")]
    return places[::-1] if whole else places


def book_command(named=None, whole=False):
    """How to run the program. The linked program is run just as the C program is."""
    for path in [named] if named else book_places(whole):
        if os.path.exists(path):
            path = os.path.abspath(path)
            return run_by() + [path] if is_elf(path) else [path]
    stop(f"no program {named or 'book'}: build it first (README.md, The two commands)")


# ---- time ----

class Room:
    """A folder for the programs, inputs and outputs of the runs."""

    def __init__(self, as_rt=False):
        self.folder = tempfile.mkdtemp(prefix="book-bench-")
        self.environment = surroundings(as_rt)

    def __enter__(self):
        return self

    def __exit__(self, *_):
        shutil.rmtree(self.folder)

    def path(self, name):
        return os.path.join(self.folder, name)

    def kept(self, name, text):
        with open(self.path(name), "wb") as file:
            file.write(text)
        return self.path(name)

    def timed(self, command, given, repeat=1):
        """Processor seconds (user and system) of the command on the input, and what it wrote."""
        seconds = 0.0
        for _ in range(repeat):
            with open(given, "rb") as source, open(self.path("out"), "wb") as sink:
                child = subprocess.Popen(command, stdin=source, stdout=sink, env=self.environment)
                _, status, used = os.wait4(child.pid, 0)
                child.returncode = os.waitstatus_to_exitcode(status)
            if child.returncode != 0:
                stop(f"{command[-1]} ended with status {child.returncode}")
            seconds += used.ru_utime + used.ru_stime
        with open(self.path("out"), "rb") as file:
            return seconds, file.read()

    def compared(self, commands, given, runs, repeat=1):
        """The median time of each command, run in turn; all must write the same."""
        path, times, wrote = self.kept("in", given), [[] for _ in commands], None
        for _ in range(runs):
            for which, command in enumerate(commands):
                seconds, text = self.timed(command, path, repeat)
                times[which].append(seconds)
                if wrote is not None and text != wrote:
                    stop(f"{commands[0][-1]} and {command[-1]} write different things")
                wrote = text
        return [statistics.median(of_one) for of_one in times]


# ---- tables ----

def table(head, rows):
    """Prints a Markdown table; all columns but the first are numbers."""
    print("| " + " | ".join(head) + " |")
    print("|---|" + "---:|" * (len(head) - 1))
    for row in rows:
        print("| " + " | ".join(str(cell) for cell in row) + " |", flush=True)


def machine_kind():
    return f"{platform.machine()}, {os.cpu_count()} cores"


def machine(as_rt=False):
    """What the times were measured on, in a few words."""
    how = ", all programs under the toolchain's emulator of x86-64" if emulated() else ""
    if emulated() and not as_rt:
        how += ", without `rep` instructions"
    return machine_kind() + how


def in_ms(seconds):
    return f"{seconds * 1000:.0f}"
