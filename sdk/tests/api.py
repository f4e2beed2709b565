#!/usr/bin/env python3
"""Tries the API: an application that calls all of it, what ends in a panic and at which line, what is warned of, and that what
isn't served is refused by its name when it is compiled, and by the linker where the program declares it itself.

Status: 0 where all is as wanted, 1 where something isn't, 2 at other words.
usage: api.py [program=FILE]
"""

import pathlib
import re
import shutil
import sys
import tempfile

import bench
from tulgexar import program
from tulgexar.words import BadWords, run

API = bench.TESTS / "api"

# What panics, by the number that the application takes, with its code and a part of the line of the source.
PANICS = {
    0: ("0000c0de", "TEE_Panic(0xC0DE)"),
    1: ("00000011", "function(1)"),
    2: ("00000010", "assert("),
    3: ("00000003", "100 / zero"),
    4: ("00000004", "deep(n - 1)"),
    5: ("00000001", "room"),
    6: ("ffff0003", "TEE_ReadObjectData"),
    7: ("ffff0006", "TEE_CloseObject((TEE_ObjectHandle)9)"),
    8: ("00000001", "*(volatile uint8_t *)panic"),
    9: ("00000010", "abort()"),
    10: ("ffff0006", "TEE_DATA_SEEK_END + 1"),
}

# Functions of the standard that aren't there: one of each kind.
ABSENT = """
TEE_GetPropertyAsBinaryBlock TEE_OpenTASession TEE_CloseTASession TEE_InvokeTACommand TEE_RestrictObjectUsage1
TEE_GetObjectBufferAttribute TEE_GetObjectValueAttribute TEE_AllocateTransientObject TEE_FreeTransientObject TEE_ResetTransientObject
TEE_PopulateTransientObject TEE_InitRefAttribute TEE_InitValueAttribute TEE_CopyObjectAttributes1 TEE_GenerateKey
TEE_RenamePersistentObject TEE_AllocatePersistentObjectEnumerator
TEE_FreePersistentObjectEnumerator TEE_ResetPersistentObjectEnumerator TEE_StartPersistentObjectEnumerator
TEE_GetNextPersistentObject TEE_TruncateObjectData TEE_AllocateOperation TEE_DigestUpdate TEE_CipherInit TEE_MACInit TEE_AEInit
TEE_AsymmetricSignDigest TEE_DeriveKey TEE_GenerateRandom TEE_GetTAPersistentTime TEE_SetTAPersistentTime TEE_BigIntInit
""".split()


def check_served(report, folder, file):
    done = bench.built("-o", folder / "api", API / "api_ta.c")
    report.check(done.returncode == 0, "the application is built", done.stderr)
    shutil.copy(API / "api.client", folder)
    lines, is_as_wanted = bench.played(folder / "api.client", file)
    report.check(is_as_wanted, "api.client", "\n".join(lines))


def check_panics(report, folder, file):
    """A call that is wanted to be a success is told with its panic."""
    source = (API / "api_ta.c").read_text().splitlines()
    head = [line for line in (API / "api.client").read_text().splitlines() if line.split(" ")[0] in ("image", "boot", "ta")]
    uuid = head[-1].split(" ")[1]
    for kind, (code, part) in PANICS.items():
        script = folder / f"panic{kind}.client"
        script.write_text("\n".join([*head, f"open s {uuid}", f"invoke s a vio:{kind:x}:0", "#= invoke s SUCCESS TRUSTED_APP", ""]))
        told = bench.panic_of(script, file)
        line = re.search(r"api_ta\.c:([0-9]+)\)$", told)
        report.check(f"panic {code} at " in told, f"panic {kind} is {code}", told)
        near = "\n".join(source[max(0, int(line[1]) - 2) : int(line[1]) + 1]) if line else ""
        report.check(part in near, f"panic {kind} is at the line of {part}", told)


def check_warnings(report, folder, file):
    """Calls that are too deep, and a stack of no fixed size, are warned of; the first panic when they come."""
    apart = "__attribute__((noinline, noclone))"
    deep = [f"static {apart} int f{k}(int x) {{ return f{k - 1}(x + 1) * 3 + {k}; }}" for k in range(1, 70)]
    deep = "\n".join([f"static {apart} int f0(int x) {{ return x * 5; }}", *deep, "#define random_main() (checksum = f69(checksum))"])
    room = f"static {apart} int fill(int n) {{ volatile char room[n]; room[n - 1] = 1; return room[0]; }}"
    room += "\n#define random_main() (checksum = fill(checksum + 5))"
    for name, text, wanted in (("deep", deep, "calls go 70 deep"), ("room", room, "the stack of .* has no fixed size")):
        body = (bench.TESTS / "random/application.c").read_text().replace("int random_main(void);", text)
        (folder / f"{name}.c").write_text(body)
        (folder / "user_ta_header_defines.h").write_text((bench.TESTS / "random/user_ta_header_defines.h").read_text())
        done = bench.built("-o", folder / name, folder / f"{name}.c")
        is_warned = done.returncode == 0 and re.search(f"ta_cc.py: warning: {wanted}", done.stderr)
        report.check(is_warned, f"{name} is warned of", done.stderr[-300:])
    uuid = "11111111-2222-3333-4444-555555555555"
    script = folder / "deep.client"
    lines = ["image deep deep.hex", "boot 1 2 64", f"ta {uuid} $deep", f"open s {uuid}", "invoke s 0 vio:0:0"]
    script.write_text("\n".join([*lines, "#= invoke s SUCCESS TRUSTED_APP", ""]))
    told = bench.panic_of(script, file)
    report.check("panic 00000004 at " in told and "deep.c:" in told, "calls that are too deep are panic 4", told)


def check_absent(report, folder):
    (folder / "user_ta_header_defines.h").write_text((API / "user_ta_header_defines.h").read_text())
    body = (bench.TESTS / "random/application.c").read_text()
    body = body.replace("int random_main(void);", "").replace("random_main();", "%s();")
    for name in ABSENT:
        for declared, word in (("", "implicit declaration"), (f"void {name}(void);\n", "undefined reference")):
            file = folder / "absent.c"
            file.write_text(body.replace("uint32_t checksum;", f"uint32_t checksum;\n{declared}") % name)
            done = bench.built("-o", folder / "absent", file)
            is_refused = done.returncode == 1 and word in done.stderr and name in done.stderr
            report.check(is_refused and not (folder / "absent.hex").exists(), f"{name} is refused: {word}", done.stderr[-300:])
            if name != ABSENT[0]:
                break


def main(words):
    words = list(words)
    file = program.taken_from(words)
    if words:
        raise BadWords()
    program.found("optee_run", file)
    report = bench.Report("api.py")
    with tempfile.TemporaryDirectory() as folder:
        check_served(report, pathlib.Path(folder), file)
        check_panics(report, pathlib.Path(folder), file)
        check_warnings(report, pathlib.Path(folder), file)
        check_absent(report, pathlib.Path(folder))
    return report.end()


if __name__ == "__main__":
    sys.exit(run(main, __doc__))
