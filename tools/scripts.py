"""What the Python scripts of this repository share: failing with one line, running a command, building and running a program, counting instructions, and making
a library out of a copy of the crates. A script finds it by `sys.path`: see any of bench/."""
import os
import platform
import re
import shutil
import subprocess
import sys
from pathlib import Path

ROOT = Path(__file__).resolve().parent.parent

COUNT = ROOT / "bench" / "count"

# How a C program with no C library is made for the processor that programs are compiled for.
FREESTANDING = "--target=x86_64-unknown-linux-gnu -O1 -ffreestanding -fno-builtin -nostdlib -static".split()


def fail(message, status=2):
    """Ends the script with one line that says which it is and what is wrong."""
    script = Path(sys.argv[0]).resolve()
    name = script.relative_to(ROOT) if script.is_relative_to(ROOT) else script.name
    print("%s: %s" % (name, message), file=sys.stderr)
    sys.exit(status)


def run(command, room=ROOT, what=None, **more):
    """What a command writes; the script ends where it fails."""
    done = subprocess.run([str(word) for word in command], cwd=room, capture_output=True, **{"text": True, **more})
    if done.returncode:
        said = done.stdout + done.stderr
        fail("%s: %s" % (what or command[0], (said if isinstance(said, str) else said.decode("utf-8", "replace"))[-2000:].strip()))
    return done.stdout


def program(name, *arguments):
    """What runs a program, which is built first, and takes these arguments. ./NAME looks for newer sources at each call, so it is left out where the processor
    can run the program itself."""
    try:
        built = subprocess.run([ROOT / name, *arguments], input=b"", capture_output=True)
    except OSError as error:
        fail("./%s does not run: %s" % (name, error))
    if built.returncode > 1:
        fail("./%s does not run: %s" % (name, built.stderr.decode().strip()))
    return ROOT / "target" / "bin" / name if platform.machine() == "x86_64" else ROOT / name


def emulated(program):
    """The command that runs a program which is compiled for x86-64: with an emulator, the kit's loader and its C library where the processor is another."""
    if platform.machine() == "x86_64":
        return [str(program)]
    tools = toolchain().parent
    emulator = shutil.which("qemu-x86_64", path="%s:%s" % (tools / "bin", os.environ.get("PATH", "")))
    if not emulator:
        fail("running on %s needs an emulator, and there is no qemu-x86_64 on the path" % platform.machine())
    with open(program, "rb") as file:
        needs_loader = b"ld-linux-x86-64" in file.read()
    loader = [str(tools / "lib" / "ld-linux-x86-64.so.2"), "--library-path", str(tools / "lib")]
    return [emulator, *(loader if needs_loader else []), str(program)]


def counted(program, *arguments, data=b""):
    """The x86-64 instructions of a run of a program on these bytes."""
    return int(run([COUNT, program, *arguments], what="not counted", input=data, text=False))


def supplied():
    """The folder of the request's files: the Rust, the standard's numbers, the suite. It is beside the repository, or where SHARED says."""
    folder = Path(os.environ.get("SHARED", ROOT.parent / "shared")).resolve()
    if not folder.is_dir():
        fail("there is no %s: compare/README.md says what has to be there, and SHARED may name it" % folder)
    return folder


def toolchain():
    """The folder of the compiler and linker with which rt makes programs."""
    if not shutil.which("rt"):
        fail("there is no rt (Rattle's command) on the path")
    return Path(run(["rt", "doc"]).strip()).parent / "toolchain" / "bin"


def copy_crates(room):
    """A copy of the crates in a folder. What rt proved of them anywhere on this machine it takes up there, so that nothing of it is proved again."""
    shutil.rmtree(room / "crates", ignore_errors=True)
    shutil.copytree(ROOT / "crates", room / "crates", ignore=shutil.ignore_patterns("must-fail", "out"))
    shutil.copy(ROOT / "crates.txt", room)


def add_crate(room, name, uses, text):
    """One more crate in such a copy: a library of one file."""
    with (room / "crates.txt").open("a") as listed:
        listed.write("%s: %s\n" % (name, uses))
    source = room / "crates" / name / "src" / "lib.rt"
    source.parent.mkdir(parents=True)
    source.write_text(text)


def make_static(room, name):
    """Has rt make a static library of a crate of the copy: crates.txt says so behind its name."""
    listed = room / "crates.txt"
    listed.write_text(re.sub(r"(?m)^%s:" % name, "%s staticlib:" % name, listed.read_text()))


def archive(room, name):
    """The static library of a crate of the copy."""
    make_static(room, name)
    run(["rt", "lib"], room / "crates" / name, "the static library was not made")
    return room / "crates" / name / "out" / ("lib%s.a" % name)


def native_archive(room, name):
    """The static library of a crate of the copy for the processor at hand. rt's is for x86-64; for another processor the module that rt's is compiled from is compiled
    again, by the same compiler, with what belongs to x86-64 left out. How a function hands back more than sixteen bytes stays x86-64's way in the module, so such
    a function cannot be called from C or Rust there."""
    if platform.machine() == "x86_64":
        return archive(room, name)
    make_static(room, name)
    made = room / "target" / "native"
    made.mkdir(parents=True, exist_ok=True)
    run([ROOT / "tools" / "module", name, made], room, "there is no module")
    words = (made / "words").read_text().splitlines()
    foreign = [word for word in words if not word.startswith(("--target=", "-march=", "--sysroot=", "-Werror"))]
    of_x86 = [k for k, word in enumerate(foreign) if "x86" in word]
    foreign = [word for k, word in enumerate(foreign) if k not in of_x86 and k + 1 not in of_x86]
    run([toolchain() / "clang", "--target=%s-unknown-linux-gnu" % platform.machine(), *foreign], made, "the module was not compiled for this processor")
    library = made / ("lib%s.a" % name)
    library.unlink(missing_ok=True)
    run([toolchain() / "llvm-ar", "crs", library, "module.o"], made, "the library was not made")
    return library


def driver(room, text, *archives):
    """The program that a C text and these archives make."""
    tools = toolchain()
    (room / "driver.c").write_text(text)
    run([tools / "clang", *FREESTANDING, "-c", "driver.c"], room, "the driver was not compiled")
    run([tools / "ld.lld", "-o", "driver", "driver.o", *archives], room, "the driver was not linked")
    return room / "driver"
