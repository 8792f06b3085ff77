"""Builds the library, the peers that can be had, and the two programs that are measured."""

import hashlib
import os
import shutil
import subprocess
import sys
import urllib.error
import urllib.request

ROOT = os.path.dirname(os.path.dirname(os.path.abspath(__file__)))
BENCH = os.path.join(ROOT, "bench")
OUT = os.path.join(ROOT, "target", "bench")
LIBRARY = os.path.join(ROOT, "target", "lib", "libkolowrotan.a")

DIALECT = ["-std=c11", "-D_POSIX_C_SOURCE=200809L", "-Wall", "-Wextra", "-pedantic"]
OPTIMIZED = ["-O2"]

# lighttpd's source in Debian 12 carries ls-hpack. The sum is the one in Debian's signed lighttpd_1.4.69-1.dsc.
LIGHTTPD = "lighttpd-1.4.69"
LIGHTTPD_URL = "http://deb.debian.org/debian/pool/main/l/lighttpd/lighttpd_1.4.69.orig.tar.xz"
LIGHTTPD_SUM = "16ac8db95e719629ba61949b99f8a26feba946a81d185215b28379bb4116b0b4"


def say(text):
    print(text, file=sys.stderr, flush=True)


def run(command):
    subprocess.run(command, cwd=ROOT, check=True)


def build_library():
    if shutil.which("rt") is None:
        sys.exit("rt is missing, which builds the library; or name a library that is built by --library")
    say("building the library")
    with open(os.path.join(OUT, "library.log"), "w") as log:
        subprocess.run(["make", "-s"], cwd=ROOT, check=True, stdout=log, stderr=log)
    return LIBRARY


def debian_peer(name):
    """Whether the header and the static library of a package are installed."""
    program = f"#include <{name}/{name}.h>\nint main(void) {{ return {name}_version(0) == 0; }}\n"
    command = ["cc", "-x", "c", "-", f"-l:lib{name}.a", "-o", os.path.join(OUT, "probe")]
    found = subprocess.run(command, input=program, text=True, stdout=subprocess.DEVNULL, stderr=subprocess.DEVNULL)
    if found.returncode != 0:
        say(f"{name} is missing (Debian: apt-get install lib{name}-dev); measured without it")
    return found.returncode == 0


def fetch_lighttpd():
    """The unpacked source, or None where it cannot be had."""
    folder = os.path.join(OUT, LIGHTTPD)
    if os.path.isdir(folder):
        return folder
    try:
        with urllib.request.urlopen(LIGHTTPD_URL, timeout=60) as answer:
            archive = answer.read()
    except (urllib.error.URLError, OSError) as error:
        say(f"ls-hpack is missing ({LIGHTTPD_URL}: {error}); measured without it")
        return None
    if hashlib.sha256(archive).hexdigest() != LIGHTTPD_SUM:
        say(f"ls-hpack is missing ({LIGHTTPD_URL} has another sum than Debian's); measured without it")
        return None
    path = os.path.join(OUT, LIGHTTPD + ".tar.xz")
    with open(path, "wb") as file:
        file.write(archive)
    run(["tar", "-C", OUT, "-xf", path])
    return folder


def compile_lshpack(folder):
    source = os.path.join(folder, "src")
    objects = []
    for name in ["ls-hpack/lshpack.c", "algo_xxhash.c"]:
        target = os.path.join(OUT, os.path.basename(name)[:-2] + ".peer.o")
        run(["cc", *OPTIMIZED, "-w", "-I", source, "-c", os.path.join(source, name), "-o", target])
        objects.append(target)
    return objects, ["-DHAVE_LSHPACK", "-isystem", os.path.join(source, "ls-hpack")]


def build_driver(library):
    """Compiles the common driver with all peers that were found."""
    sources = ["driver.c", "work.c", "messages.c", "lists.c", "huffman.c", "writer.c", "draft.c", "kolowrotan.c"]
    flags, objects = [], []
    for name in ["nghttp2", "nghttp3"]:
        if debian_peer(name):
            sources.append(name + ".c")
            flags.append("-DHAVE_" + name.upper())
            objects.append(f"-l:lib{name}.a")
    lighttpd = fetch_lighttpd()
    if lighttpd is not None:
        peer, more = compile_lshpack(lighttpd)
        sources.append("lshpack.c")
        objects += peer
        flags += more
    program = os.path.join(OUT, "driver")
    paths = [os.path.join(BENCH, source) for source in sources]
    run(["cc", *DIALECT, *OPTIMIZED, *flags, "-Iinclude", "-o", program, *paths, library, *objects])
    return program


def build_calls(library):
    """Compiles the program that measures single calls of the library."""
    program = os.path.join(OUT, "calls")
    paths = [os.path.join(BENCH, source) for source in ["calls.c", "given.c", "huffman.c", "lists.c"]]
    run(["cc", *DIALECT, *OPTIMIZED, "-Iinclude", "-o", program, *paths, library])
    return program


def build_second(library):
    """Compiles the second program over this library; None where there is no cargo."""
    if shutil.which("cargo") is None:
        say("cargo is missing, which builds the second program")
        return None
    folder = os.path.join(OUT, "second", "library")
    os.makedirs(folder, exist_ok=True)
    shutil.copy(library, os.path.join(folder, "libkolowrotan.a"))
    target = os.path.join(OUT, "second")
    command = ["cargo", "build", "--release", "--offline", "--locked", "--quiet", "--manifest-path", "tests/second/Cargo.toml"]
    subprocess.run(command, cwd=ROOT, check=True, env={**os.environ, "KOLOWROTAN_LIB": folder, "CARGO_TARGET_DIR": target})
    return os.path.join(target, "release", "second")


def first_line(command):
    """What a program says of itself, or that it is not there."""
    try:
        return subprocess.run(command, cwd=ROOT, capture_output=True, text=True).stdout.splitlines()[0]
    except (OSError, IndexError):
        return "not known"


def machine(versions):
    """What was measured, on what, as a Markdown list."""
    with open("/proc/cpuinfo") as file:
        models = [line.split(":", 1)[1].strip() for line in file if line.startswith("model name")]
    debian = {name: first_line(["dpkg-query", "-W", "-f", "${Version}", f"lib{name}-dev"]) for name in ["nghttp2", "nghttp3"]}
    lines = [f"- {models[0] if models else 'not known'}, {len(models)} processors, Linux {os.uname().release}",
             f"- {first_line(['cc', '--version'])}, {' '.join(OPTIMIZED)}; {first_line(['valgrind', '--version'])}",
             f"- {first_line(['rt', 'version'])}; commit {first_line(['git', 'rev-parse', '--short', 'HEAD'])}"]
    for name, version in versions.items():
        if name in debian:
            lines.append(f"- {name} {version}, Debian's static library, package {debian[name]}")
        elif name == "ls-hpack":
            lines.append(f"- {name} {version}, from Debian's source of {LIGHTTPD}, compiled here")
    return "\n".join(lines)
