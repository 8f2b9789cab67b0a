"""The library for C as the gate has it, and the module of LLVM that the kit's rattle gave clang for it. dist/module
and dist/targets begin with that module. One run of rattle keeps it, for as long as the archive, the kit and the
module itself are the same; a run beside it waits for what it keeps."""
import fcntl
import filecmp
import hashlib
import json
import os
import re
import shutil

import kit

TOP = os.path.dirname(os.path.dirname(os.path.dirname(os.path.realpath(__file__))))
NAME = "mm_c"
FOLDER = f"{TOP}/crates/{NAME}"
ARCHIVE = f"{FOLDER}/out/lib{NAME}.a"
KEPT = f"{TOP}/dist/lowering/out/library"
PARTS = ("module.bc", "words")


def exports():
    """The calls that the header declares."""
    return re.findall(r"^void (rudlayog_\w+)", kit.text_of(f"{TOP}/bindings/c/rudlayog.h"), re.M)


def sum_of(path):
    with open(path, "rb") as file:
        return hashlib.sha256(file.read()).hexdigest()


def sums(folder):
    """What the module is kept for, and the sums of what is kept."""
    files = {name: f"{folder}/{name}" for name in PARTS}
    return {name: sum_of(path) for name, path in {**files, "archive": ARCHIVE, "kit": f"{kit.KIT}/KIT-ID"}.items()}


def is_kept():
    try:
        note = json.loads(kit.text_of(f"{KEPT}/note"))
        return {name: note.get(name) for name in sums(KEPT)} == sums(KEPT)
    except (OSError, ValueError):
        return False


def keep(work, verdict):
    """Keeps what a run of rattle left. The note comes last, so that no half of it is taken for the whole."""
    shutil.rmtree(KEPT, ignore_errors=True)
    os.makedirs(KEPT)
    for name in PARTS:
        shutil.copy(f"{work}/{name}", KEPT)
    with open(f"{KEPT}/part", "w", encoding="utf-8") as file:
        json.dump({**sums(KEPT), "verdict": verdict}, file, indent=1)
    os.rename(f"{KEPT}/part", f"{KEPT}/note")


def build(rt, work):
    """Proves the library and builds it, which must give the archive of the gate; what the check of the crate has kept
    saves minutes."""
    kept = f"{work}/kept"
    if os.path.isdir(f"{FOLDER}/out/incremental"):
        shutil.copytree(f"{FOLDER}/out/incremental", kept, symlinks=True)
    verdict = kit.build(rt, FOLDER, TOP, work, "--incremental", kept, jobs=os.cpu_count())
    if not filecmp.cmp(f"{work}/lib.a", ARCHIVE, shallow=False):
        kit.refuse(f"the archive is another one than {ARCHIVE}: make -C bindings/c builds that anew")
    keep(work, verdict)
    return verdict


def proved(rt, work):
    """Leaves in a new folder the module of the library, module.bc, as soon as clang begins with it, and clang's words
    beside it; gives what rattle said of the proof."""
    if not os.path.isfile(ARCHIVE):
        kit.refuse(f"{ARCHIVE} is not built: make -C bindings/c builds it")
    os.mkdir(work)
    os.makedirs(os.path.dirname(KEPT), exist_ok=True)
    with open(f"{KEPT}.lock", "w", encoding="utf-8") as lock:
        fcntl.flock(lock, fcntl.LOCK_EX)
        if not is_kept():
            return build(rt, work)
    for name in reversed(PARTS):
        shutil.copy(f"{KEPT}/{name}", f"{work}/part")
        os.rename(f"{work}/part", f"{work}/{name}")
    return json.loads(kit.text_of(f"{KEPT}/note"))["verdict"]
