"""What dist/module and dist/targets ask of the kit: how rt has rattle build a crate, and the module that rattle gives
its clang."""
import importlib.machinery
import importlib.util
import os
import re
import shutil
import subprocess
import sys
import threading

NAME = f"dist/{os.path.basename(sys.argv[0])}"
RT = shutil.which("rt") or sys.exit(f"{NAME}: no rt on PATH")
KIT = os.path.dirname(subprocess.run([RT, "doc"], capture_output=True, text=True, check=True).stdout.strip())
TOOLS = f"{KIT}/toolchain/bin"
X86 = "x86_64-unknown-linux-gnu"
WASM = "wasm64-unknown-unknown"
spent = threading.local()


def refuse(words):
    sys.exit(f"{NAME}: {words}")


def load_rt():
    """The parts of the kit's rt, which may be loaded in the first thread alone."""
    file = f"{os.path.dirname(os.path.realpath(RT))}/rtlib.py"
    loader = importlib.machinery.SourceFileLoader("rtlib", file)
    made = importlib.util.module_from_spec(importlib.util.spec_from_loader("rtlib", loader))
    sys.modules["rtlib"] = made
    loader.exec_module(made)
    # The probe of the heap declares functions of C; no other crate may.
    os.environ["RT_ALLOW_C"] = "heap"
    made.guarded()
    return made


def run(*words, cwd=None):
    """Runs a command, whose output is shown where it fails."""
    how = {"stdin": subprocess.DEVNULL, "stdout": subprocess.PIPE, "stderr": subprocess.STDOUT}
    with subprocess.Popen(words, cwd=cwd, text=True, errors="replace", **how) as ran:
        said = ran.stdout.read()
        _, status, used = os.wait4(ran.pid, 0)
        ran.returncode = os.waitstatus_to_exitcode(status)
    spent.seconds = spent_in_commands() + used.ru_utime + used.ru_stime
    if ran.returncode:
        last = "\n".join(said.split("\n")[-20:])
        refuse(f"status {ran.returncode} of {os.path.basename(words[0])} {' '.join(words[1:3])} ..\n{last}")
    return said


def spent_in_commands():
    """The processor time of the commands that this thread has run, in seconds."""
    return getattr(spent, "seconds", 0.0)


def recording_tools(work):
    """A toolchain that is the kit's, but that its clang leaves the module that it is given, and its words, in the
    folder, before it begins. Once the module is there, both are whole."""
    os.makedirs(f"{work}/tools/bin")
    os.symlink(f"{KIT}/toolchain/lib", f"{work}/tools/lib")
    for tool in os.listdir(TOOLS):
        if tool != "clang":
            os.symlink(f"{TOOLS}/{tool}", f"{work}/tools/bin/{tool}")
    clang = f"{work}/tools/bin/clang"
    with open(clang, "w", encoding="utf-8") as file:
        keep = f'cp module.bc "{work}/module.part" && printf "%s\\n" "$@" >"{work}/words"'
        keep += f' && mv "{work}/module.part" "{work}/module.bc"'
        file.write(f'#!/bin/sh\nif [ -f module.bc ]; then {keep}; fi\nexec "{TOOLS}/clang" "$@"\n')
    os.chmod(clang, 0o755)
    return f"{work}/tools"


def build(rt, folder, top, work, *more, jobs=2):
    """Proves and builds a crate in the kit's way. Leaves the archive as lib.a, the module as module.bc and clang's
    words as words in the folder for work, and gives rattle's last line."""
    crate = rt.Crate(folder, top, {})
    for below in crate.below():
        if not below.is_built():
            refuse(f"the library {below.name} is not built of these sources: ./mm_tool --libraries {crate.name} does")
    tools = recording_tools(work)
    words = [*crate.words(["--jobs", str(jobs)]), *more, "--toolchain", tools, "-o", f"{work}/lib.a"]
    said = run(f"{KIT}/bin/rattle", "build", *words, cwd=folder)
    verdict = re.search(r"^logic=proved .*$", said, re.M) or refuse(f"{crate.name} is not proved:\n{said[-2000:]}")
    return verdict[0]


def text_of_module(work, triple):
    """The module in the folder for work, as text."""
    how = ("-S", "-emit-llvm", "-O0", "-Xclang", "-disable-llvm-passes", "-x", "ir")
    run(f"{TOOLS}/clang", f"--target={triple}", *how, f"{work}/module.bc", "-o", f"{work}/module.ll")
    return text_of(f"{work}/module.ll")


def text_of(path):
    with open(path, encoding="utf-8") as file:
        return file.read()


def flags(work, *more):
    """The words with which rattle had clang compile the module in the folder for work, but for the names of files and
    folders."""
    words = text_of(f"{work}/words").split("\n")[:-1]
    at = words.index("-c")
    if words[at:] != ["-c", "-x", "ir", "module.bc", "-o", "module.o", *more, "-O3"]:
        refuse(f"rattle calls clang in another way: {words[at:]}")
    return [word for word in words[:at] if not word.startswith("--sysroot=")]
