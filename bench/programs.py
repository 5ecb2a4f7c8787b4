"""The two sides that bench/run measures: builds both for x86-64, and counts what they execute between their marks.

The Rust is built by the newest rustc of Debian's packages on every processor, so that tables of two can be set side by side: the
library for x86-64 is among the packages too.
"""
import os
import platform
import re
import shutil
import subprocess
from pathlib import Path

ROOT = Path(__file__).resolve().parent.parent
MACHINE = platform.machine()
NAME = "bench"
PORT = ROOT / "crates" / NAME / "out" / NAME
PLUGIN = ROOT / "target/libcount.so"
TARGET = "x86_64-unknown-linux-gnu"
RUSTC = "/usr/bin/rustc"
# Where Debian's C library for another processor stands.
CROSS = "/usr/x86_64-linux-gnu"
AMD64 = ROOT / "target/amd64"
OBJDUMP = "objdump" if MACHINE == "x86_64" else "x86_64-linux-gnu-objdump"


def run(*words, **how):
    return subprocess.run([str(word) for word in words], check=True, **how)


def install(packages):
    """From Debian's packages, those that are missing."""
    there = [subprocess.run(["dpkg", "-s", name], capture_output=True).returncode == 0 for name in packages]
    missing = [name for name, is_there in zip(packages, there) if not is_there]
    if missing:
        as_root = [] if os.geteuid() == 0 else ["sudo"]
        run(*as_root, "apt-get", "update", "-qq")
        run(*as_root, "apt-get", "install", "-y", "-qq", "--no-install-recommends", *missing, stdout=subprocess.DEVNULL)


def library():
    """The folder with the Rust library for x86-64, unpacked from its package beside the machine's own."""
    found = AMD64 / "unpacked/usr"
    if not (found / "lib/rustlib" / TARGET).is_dir():
        for folder in ["lists/partial", "cache/archives/partial"]:
            (AMD64 / folder).mkdir(parents=True, exist_ok=True)
        own = {"APT::Architecture": "amd64", "APT::Architectures": "amd64", "Dir::State::lists": AMD64 / "lists",
               "Dir::Cache": AMD64 / "cache"}
        options = [word for name, value in own.items() for word in ("-o", f"{name}={value}")]
        version = run("dpkg-query", "-W", "-f", "${Version}", "rustc-web", capture_output=True, text=True).stdout
        run("apt-get", *options, "update", "-qq")
        run("apt-get", *options, "download", f"libstd-rust-web-dev={version}", cwd=AMD64, capture_output=True)
        run("dpkg", "-x", next(AMD64.glob("libstd-rust-web-dev_*.deb")), AMD64 / "unpacked")
    return found


def build_rust():
    """laminar's program. Comes back with the words to run it by."""
    laminar = Path(os.environ.get("LAMINAR", ROOT / "../shared/docs/src")).resolve()
    environment = {**os.environ, "LAMINAR": str(laminar), "CARGO_TARGET_DIR": str(ROOT / "target/oracle")}
    run(ROOT / "tests/oracle/set-up", env=environment)
    environment["RUSTC"] = RUSTC
    (ROOT / "tests/oracle/Cargo.lock").unlink(missing_ok=True)
    install(["rustc-web", "cargo-web"])
    emulator = ["qemu-x86_64"]
    if MACHINE != "x86_64":
        install(["gcc-x86-64-linux-gnu", "libc6-dev-amd64-cross"])
        emulator += ["-L", CROSS]
        setting = "CARGO_TARGET_" + TARGET.upper().replace("-", "_")
        environment[setting + "_LINKER"] = "x86_64-linux-gnu-gcc"
        environment[setting + "_RUSTFLAGS"] = f"--sysroot {library()}"
    words = ["build", "--quiet", "--offline", "--profile", "measured", "--target", TARGET]
    run("/usr/bin/cargo", *words, "--bin", NAME, cwd=ROOT / "tests/oracle", env=environment)
    return [*emulator, ROOT / "target/oracle" / TARGET / "measured" / NAME]


class Programs:
    """Both sides' programs, built. `compiler` says by what laminar's were."""

    def __init__(self):
        install(["qemu-user", "gcc", "libc6-dev"])
        self.rust = build_rust()
        run(ROOT / "tools/build-program", NAME)
        run("gcc", "-shared", "-fPIC", "-O2", "-o", PLUGIN, ROOT / "bench/count.c")
        kit = Path(os.environ.get("RATTLE_HOME") or Path(shutil.which("rt")).resolve().parent.parent)
        tools = kit / "toolchain/lib"
        loader = ["qemu-x86_64", tools / "ld-linux-x86-64.so.2", "--library-path", tools]
        self.port = [*loader, PORT]
        self.compiler = run(RUSTC, "--version", capture_output=True, text=True).stdout.strip()


def between_marks(program, given):
    """Instructions between marks, how many pairs of marks there were, and what the program printed."""
    words = [program[0], "-cpu", "max,-erms", "-plugin", PLUGIN, *program[1:]]
    ran = run(*words, input=given, capture_output=True)
    instructions, marks = map(int, re.search(rb"instructions (\d+) marks (\d+)", ran.stderr).groups())
    return instructions, marks / 2, ran.stdout
