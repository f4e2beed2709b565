"""Puts faults into the library, one at a time, and says whether a test sees it.

Each is built into a folder of its own and tried by the tests, the quick ones first; one that hangs is seen, too.
Status: 0 where all are seen but those that are known not to be; 1 else; 2 at other words.
usage: faults.py PROGRAM [NAME..]
"""

import os
import pathlib
import shutil
import subprocess
import sys
import tempfile

TEEC = pathlib.Path(__file__).resolve().parent.parent
TESTS = ["descriptions", "parameters", "files", "waits", "misuse", "stress", "ends"]
PATIENCE = 60  # seconds

# Name: file, what stands there once, and what comes in its place. A name with a reason is one that no test can see.
FAULTS = {
    "the last page of a block isn't taken": ("ram.c", "i < start + pages; i++", "i + 1 < start + pages; i++"),
    "pages of shared memory aren't taken": (
        "ram.c",
        "    for (size_t i = 0; i < pages; i++) ram->is_taken[(addresses",
        "    for (size_t i = 1; i < pages; i++) ram->is_taken[(addresses",
    ),
    "a page isn't given back": (
        "ram.c",
        "    for (size_t i = 0; i < pages; i++) ram->is_taken[(address -",
        "    for (size_t i = 1; i < pages; i++) ram->is_taken[(address -",
    ),
    "a wake counts twice": (
        "turn.c",
        "    bool was_woken = waiter->is_woken;\n    waiter->is_woken = false;",
        "    bool was_woken = waiter->is_woken;",
    ),
    "the turn is given to nobody": ("turn.c", "    if (core->turns) leave_locked(core), take_locked(core);", "    (void)core;"),
    "virtual time goes to the last end": ("sleep.c", "seat->until < first->until", "seat->until > first->until"),
    "a woken call is counted late": ("sleep.c", "    rouse(core, seat);\n    turn_wake", "    turn_wake"),
    "a wait is ten times as short": ("sleep.c", "milliseconds % 1000 * 1000000L", "milliseconds % 1000 * 100000L"),
    "nobody is woken by a key": ("sleep.c", "    if (core->sleepers[key]) seat_wake(core, core->sleepers[key]);", "    (void)core;"),
    "the length of a read isn't told": ("requests.c", "    of->request->parameters[1].q = length;", ""),
    "the time has no fraction": ("requests.c", "request->parameters[0].q = (uint64_t)now.tv_nsec", "request->parameters[0].q = 0"),
    "a new file is looked for": ("requests.c", "return serve_open(&of, true);", "return serve_open(&of, false);"),
    "the result of a file isn't told": (
        "requests.c",
        "{seat->block + (uint32_t)area + RET_AT, (uint8_t *)request + RET_AT, REQUEST_BYTES - RET_AT}",
        "{seat->block + (uint32_t)area + RET_AT + 4, (uint8_t *)request + RET_AT + 4, REQUEST_BYTES - RET_AT - 4}",
    ),
    "pages are taken to follow each other": (
        "shared.c",
        "length < most && place->addresses[page + 1] == place->addresses[page] + PAGE;",
        "length < most;",
    ),
    "page lists have no next one": ("shared.c", "list[PER_LIST] = lists[i + 1];", "list[PER_LIST] = 0;"),
    "refused blocks keep their pages": ("shared.c", "        if (result) gives_pages(core, place);", ""),
    "blocks keep their page lists": ("shared.c", "    for (size_t i = 0; i < count; i++) ram_give(&core->ram, lists[i], 1);", ""),
    "a full output isn't copied": ("seat.c", "size > memory->size) continue", "size >= memory->size) continue"),
    "outputs of any origin are told": ("teec.c", "if (operation && *origin == TEEC_ORIGIN_TRUSTED_APP)", "if (operation)"),
    "a short output is copied": ("seat.c", "!memory->is_out || size > memory->size) continue;", "!memory->is_out) continue;"),
    "a slot isn't taken": ("seat.c", "    core->slots--, core->running++;", "    core->running++;"),
    "the line isn't woken": (
        "seat.c",
        "    core->slots++, core->running--;\n    turn_wake(core, core->line);",
        "    core->slots++, core->running--;",
    ),
    "masked calls are cancelled in their waits": (
        "seat.c",
        "    if (slot->phase != LIVE_ASKS || slot->is_masked) return true;",
        "    return false;",
    ),
    "a cancel has another number": ("seat.c", ".cancel_id = argument->cancel_id}", ".cancel_id = argument->cancel_id + 1}"),
    "a cancel doesn't reach the line": ("seat.c", "        if (seat->call->is_cancelled) return TEEC_ERROR_CANCEL;\n", ""),
    "an interrupt keeps the turn": ("seat.c", "        turn_yield(core);\n", ""),
    "a new context joins a core that is over": ("core.c", "!core->is_over && strcmp", "strcmp"),
    "a core isn't ended": ("core.c", "--core->users == 0", "core->users == 0"),
    "a child keeps the pipes": ("core.c", "    if (core->live) live_forget(core->live);\n", ""),
    "a child thinks the core is its own": ("teec.c", "    tee_behind_fork(true);", "    tee_behind_fork(false);"),
    "a cancel before the begin is lost": ("teec.c", "!= CANCELLED_BEFORE", "!= 1"),
    "sessions stay open behind their context": (
        "teec.c",
        "        if (session) close_session(context, session->number), free(session);",
        "        if (session) free(session);",
    ),
    "any flags will do": ("teec.c", "return memory->flags != 0 &&", "return memory->flags == 0 ||"),
    "a closed session is known": ("teec.c", "    if (closed) *at = closed->next;", "    if (closed) closed = NULL;"),
    "a part may leave its block": ("operation.c", "part.size > shared->size - part.offset", "part.size > shared->size"),
    "a part may have other flags": ("operation.c", "part.flags & ~shared->flags || ", ""),
    "sizes of parts aren't told": (
        "operation.c",
        "        case TEEC_MEMREF_PARTIAL_INOUT:\n            parameter->memref.size = (size_t)q;",
        "        case TEEC_MEMREF_PARTIAL_INOUT:",
    ),
    "users are named in decimal": ("login.c", '"uid=%x"', '"uid=%u"'),
    "any group will do": ("login.c", "if (!is_of_group(group)) return TEEC_ERROR_ACCESS_DENIED;", ""),
    "no application can unmask": ("description.c", "code[0] == 0x18", "code[0] == 0x19"),
    "the last line of a description is left out": (
        "description.c",
        "getline(&line, &room, file) >= 0)",
        "getline(&line, &room, file) >= 0 && !feof(file))",
    ),
    "nobody looks after the core": ("talk.c", "since >= (long)core_third(core)", "since < 0"),
    "callers aren't told of the end": (
        "talk.c",
        "    for (struct seat *seat = core->seats; seat; seat = seat->next) seat_wake(core, seat);",
        "",
    ),
    "a file may be made twice": ("files.c", "O_RDWR | O_CREAT | O_EXCL", "O_RDWR | O_CREAT"),
    "files have holes of other bytes": (
        "files.c",
        "        memset(grown + file->length, 0, end - file->length);",
        "        memset(grown + file->length, 1, end - file->length);",
    ),
    "names lead out of the folder": ("files.c", "file[length] == 0;", "true;"),
}
# Those that no test sees, and why.
UNSEEN = {
    "the length of a read isn't told": "the core reads no more of a file than it has",
    "the last page of a block isn't taken": "the core copies what a call brings as it comes in, and writes at its end: blocks don't meet",
    "pages of shared memory aren't taken": "likewise: its bytes are copied before and behind each call",
    "a file may be made twice": "the core asks for a new file only where it has found none",
    "files have holes of other bytes": "the core writes a file from its front, without holes",
    "names lead out of the folder": "the core's names have no other bytes",
}


def put(folder, file, old, new):
    """Puts a fault into a copy of the library."""
    path = folder / "teec/src" / file
    text = path.read_text()
    if text.count(old) != 1:
        raise SystemExit(f"{file}: {text.count(old)} times: {old}")
    path.write_text(text.replace(old, new))


def copied(folder):
    """A copy of what is built."""
    shutil.copytree(TEEC, folder / "teec", ignore=shutil.ignore_patterns("out"))
    for name in ("live.c", "live.h"):
        shutil.copy(TEEC.parent / name, folder / name)
    for name in ("examples", "sdk"):
        os.symlink(TEEC.parent.parent / name, folder.parent / name)
    os.symlink(TEEC.parent / "linux", folder / "linux")


def seen_by(folder, live):
    """The first test that fails, or None."""
    built = subprocess.run(["make", "-s", "-C", folder / "teec", "CFLAGS=-O1 -w", "programs"], capture_output=True, text=True)
    if built.returncode:
        raise SystemExit(built.stderr)
    words = os.environ | {"TULGEXAR_LIVE": live, "TULGEXAR_BOOT": "hosts/boot.txt"}
    for test in TESTS:
        try:
            program = folder / f"teec/out/bin/test_{test}"
            done = subprocess.run([program], cwd=folder / "teec", env=words, capture_output=True, timeout=PATIENCE)
        except subprocess.TimeoutExpired:
            return f"{test}, which hangs"
        if done.returncode:
            return test if done.returncode > 0 else f"{test}, which ends by signal {-done.returncode}"
    return None


def tried(name, live):
    """Whether a fault is seen as it is known to be."""
    with tempfile.TemporaryDirectory() as top:
        folder = pathlib.Path(top, "embed")
        folder.mkdir()
        copied(folder)
        put(folder, *FAULTS[name])
        test = seen_by(folder, live)
    if test:
        print(f"{name}: seen by {test}", flush=True)
    else:
        print(f"{name}: not seen: {UNSEEN.get(name, 'and it should be')}", flush=True)
    return (test is None) == (name in UNSEEN)


def main(words):
    if not words or not set(words[1:]) <= set(FAULTS):
        print(next(line for line in __doc__.splitlines() if line.startswith("usage: ")), file=sys.stderr)
        return 2
    names = words[1:] or list(FAULTS)
    known = [tried(name, words[0]) for name in names]
    print(f"{len(names)} faults, {known.count(False)} not as they are known")
    return 0 if all(known) else 1


if __name__ == "__main__":
    sys.exit(main(sys.argv[1:]))
