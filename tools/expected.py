"""What check.py wants, worked out by hand from docs/formats.md and the shipped files. It isn't run by itself."""

FIRST = "11111111-2222-3333-4444-555555555555"
SECOND = "22222222-3333-4444-5555-666666666666"
THIRD = "33333333-4444-5555-6666-777777777777"
DIGEST = "3f0c7a11-52b8-4d6e-9a40-0e6b5d2c8f01"

# The words of arg.py for all arguments of each example.
ARGUMENTS = {
    "cancel": [
        f"open {FIRST}",
        f"open {SECOND}",
        "invoke 1 3 id 9 value_out",
        "cancel 1 8",
        "cancel 1 9",
        "invoke 2 250 id 9",
        "cancel 2 9",
    ],
    "digest": [
        f"open {DIGEST}",
        "invoke 1 0 tmem_in 40002000 3 tmem_out 40003000 32",
        "invoke 1 0 tmem_in 40002000 3 tmem_out 40003000 31",
    ],
    "fast_calls": [],
    "one_step_at_a_time": [f"open {FIRST}", "invoke 1 0 value_inout 5 7"],
    "panic": [f"open {FIRST}", "invoke 1 1", "invoke 1 0", "invoke 2 0", "close 1"],
    "registered_memory": [
        f"open {FIRST}",
        f"open {SECOND}",
        "register 40100800 0x1000 31",
        "invoke 1 0 rmem_in 0x7fe 4 31 tmem_out 40002000 8",
        "invoke 1 0 rmem_in 0x7fe 4 31 tmem_out 40002000 3",
        "invoke 2 4 rmem_out 0x7fe 4 31",
        "invoke 2 4 rmem_out 0xffe 4 31",
        "unregister 31",
    ],
    "session": [f"open {FIRST}", "invoke 1 0 value_inout 5 7"],
    "session_in_steps": [f"open {FIRST}", "invoke 1 0 value_inout 5 7"],
    "session_with_a_memref": [f"open {FIRST}", "invoke 1 4 tmem_out 40002000 4"],
    "single_instance": [f"open {FIRST}", f"open {SECOND}", f"open {THIRD}"]
    + [f"invoke {session} 0" for session in (2, 3, 4, 5, 6)]
    + [f"close {session}" for session in (2, 3, 5)],
    "storage": [
        f"open {FIRST}",
        f"open {SECOND}",
        "invoke 1 0",
        "invoke 2 0 value_out",
        "close 2",
        "invoke 3 0 value_out",
    ],
    "thread_limit": [f"open {FIRST}"],
    "time_and_wait": [f"open {FIRST}", "invoke 1 0xfa value_out value_out"],
    "two_rams": [f"open {FIRST}", "invoke 1 0 value_inout 5 7"],
    "wait_and_resume": [f"open {FIRST}", "invoke 1 0xfa"],
    "wait_and_wake": [f"open {FIRST}", "invoke 1 250"],
}

# The tags that the replies of examples bring, which are as long as the shortest argument: HMAC with SHA-256 under 32 zeros.
TAGS = {
    "storage": [
        "6354f273f1adcfbe59f486536d6070717413c86b274ac7adaffac1d7806b898a",
        "f39ef1b09d97f1edac45fdaa34f6cbf109300b338fe191c310c79af1829f42c6",
    ],
}

# Arguments that no example has: words, and the head and the parameters, each of four words of eight bytes.
NO_BYTES = "0000000000000000"
OPEN_WITH_ALL = (
    "00000000 00000000 00000000 03000000 00000000 00000000 00000000 03000000"
    "0101000000000000 1111111122223333 4444555555555555 0000000000000000"
    "0101000000000000 2222222233334444 5555666666666666 0400000000000000"
    "0100000000000000 0100000000000000 ffffffffffffffff 0000000000000000"
)
OTHER_ARGUMENTS = {
    f"open {FIRST} client {SECOND} login 4 id 3 value_in 1 0xffffffffffffffff": OPEN_WITH_ALL,
    "invoke 0x10 2 none rmem_inout 1 2 0x3 tmem_inout 0x40002000 16": (
        "01000000 02000000 10000000 00000000 00000000 00000000 00000000 03000000"
        + 4 * NO_BYTES
        + "0700000000000000 0100000000000000 0200000000000000 0300000000000000"
        + "0b00000000000000 0020004000000000 1000000000000000 0000000000000000"
    ),
    "invoke 1 0 list_in 40100004 8 list_out 40100000 9 list_inout 40101000 0": (
        "01000000 00000000 01000000 00000000 00000000 00000000 00000000 03000000"
        "0902000000000000 0400104000000000 0800000000000000 0000000000000000"
        "0a02000000000000 0000104000000000 0900000000000000 0000000000000000"
        "0b02000000000000 0010104000000000 0000000000000000 0000000000000000"
    ),
    "invoke 1 0 null_in null_out null_inout": (
        "01000000 00000000 01000000 00000000 00000000 00000000 00000000 03000000"
        + "".join(f"{attribute}00000000000000" + 3 * NO_BYTES for attribute in ("09", "0a", "0b"))
    ),
}

REPLIES = {
    "ret 0": "+14 00000000\n",
    "ret ITEM_NOT_FOUND": "+14 0800ffff\n",
    "ret 0xffff0003": "+14 0300ffff\n",
    "time 1000 900000000": "+14 00000000\n+28 e80300000000000000e9a43500000000\n",
    "descriptor 3": "+14 00000000\n+68 0300000000000000\n",
    "bytes 4f544f3104000000": "+14 00000000\n+50 0800000000000000\n+200 4f544f3104000000\n",
    "bytes -": "+14 00000000\n+50 0000000000000000\n",
}

# Images in hexadecimal digits, blanks aside, and their refusals. GOOD is one page, entered at instruction 0, with three
# instructions: const r1 5, beq r0 r1 to 2, and system call 0.
HEAD = "4f545441 {flags} {pages} {count}" + "{entry}" + 4 * "00000000"
GOOD_HEAD = {"flags": "00000000", "pages": "01000000", "count": "03000000", "entry": "00000000"}
CODE = ["01 01 00 00 05000000", "11 00 00 01 02000000", "18 00 00 00 00000000"]


def image(instructions=CODE, **fields):
    return HEAD.format(**GOOD_HEAD | fields) + "".join(instructions)


def with_last(instruction):
    return image(CODE[:2] + [instruction])


GOOD = image()
GOOD_TEXT = """.flags 0
.pages 1
.entry create L0
.entry open L0
.entry invoke L0
.entry close L0
.entry destroy L0
L0:
const r1 5
beq r0 r1 L2
L2:
sys 0
"""
REFUSALS = {
    image([])[:-2]: "BadHeader(0)",
    GOOD.replace("4f545441", "4f545442"): "BadHeader(0)",
    image(flags="02000000"): "BadHeader(1)",
    image(flags="20000000"): "BadHeader(1)",
    image(pages="00000000"): "BadHeader(2)",
    image(pages="41000000"): "BadHeader(2)",
    image(count="01200000"): "TooLarge",
    image([], count="00000000"): "BadHeader(3)",
    image(count="02000000"): "BadHeader(3)",
    GOOD + "00": "BadHeader(3)",
    GOOD[:-2]: "BadHeader(3)",
    image(entry="03000000"): "BadEntry(0)",
    GOOD.replace(4 * "00000000" + "01", 3 * "00000000" + "03000000" + "01"): "BadEntry(4)",
    image(["00 00 00 00 00000000"] + CODE[1:]): "BadOp(0)",
    image(CODE[:1] + ["19 00 00 00 00000000"] + CODE[2:]): "BadOp(1)",
    image(CODE[:1] + ["11 00 00 01 03000000"] + CODE[2:]): "BadOp(1)",
    with_last("18 00 00 00 14000000"): "BadOp(2)",
    with_last("18 01 00 00 00000000"): "BadOp(2)",
    with_last("02 10 00 00 00000000"): "BadOp(2)",
    with_last("03 00 00 10 00000000"): "BadOp(2)",
    with_last("02 00 00 01 00000000"): "BadOp(2)",
    with_last("0f 01 00 00 00000000"): "BadOp(2)",
    with_last("17 00 00 00 01000000"): "BadOp(2)",
    # The first that fits: each of these has all later faults as well.
    image(["ff"], flags="01000000", pages="00000000", count="00000000", entry="ffffffff"): "BadHeader(1)",
    image(["ff"], pages="00000000", count="00000000", entry="ffffffff"): "BadHeader(2)",
    image(["ff"], count="01200000", entry="ffffffff"): "TooLarge",
    image(["ff"], count="00000000", entry="ffffffff"): "BadHeader(3)",
    image(["ff 00 00 00 00000000"] + CODE[1:], entry="ffffffff"): "BadEntry(0)",
}
EDGES = [  # good images at their limits
    image(flags="1c000000"),
    image(pages="40000000"),
    image(entry="02000000"),
    with_last("18 00 00 00 13000000"),
    with_last("02 0f 0f 00 00000000"),
    with_last("15 00 00 00 02000000"),
]

# What annotate.py says under a printed line of an example.
NOTES = {
    "cancel": {
        "ret 0 ffff0004 00000000 00000000 00000000 00000000 00000000 00000000 00000000": "INTERRUPT, thread 0",
        "mem 0 40000014 0200ffff04000000": "ret CANCEL; origin TRUSTED_APP",
        "mem 0 40010028 6400000000000000": "parameter 0: p 100",
    },
    "digest": {
        "mem 0 40000014 1000ffff04000000": "ret SHORT_BUFFER; origin TRUSTED_APP",
        "mem 0 40000050 2000000000000000": "parameter 1: q 32",
    },
    "fast_calls": {
        "ret 0 384fb3e0 e7f811e3 af630002 a5d5c51b 00000000 00000000 00000000 00000000": (
            "CALLS_UID 384fb3e0-e7f8-11e3-af63-0002a5d5c51b"
        ),
        "ret 0 00000002 00000000 00000000 00000000 00000000 00000000 00000000 00000000": "CALLS_REVISION 2.0",
        "ret 0 00000004 00000000 00000000 00000000 00000000 00000000 00000000 00000000": "GET_OS_REVISION 4.0",
        "ret 0 00000000 00000054 00000000 00000004 00000000 00000000 00000000 00000000": (
            "OK, capabilities: dynamic, null reference, RPC argument of 4 parameters"
        ),
        "ret 0 00000007 00000054 00000000 00000000 00000000 00000000 00000000 00000000": (
            "ENOTAVAIL, capabilities: dynamic, null reference, RPC argument"
        ),
        "ret 0 00000000 00000004 00000000 00000000 00000000 00000000 00000000 00000000": "OK, threads 4",
        "ret 0 ffffffff 00000000 00000000 00000000 00000000 00000000 00000000 00000000": "UNKNOWN_FUNCTION",
        "ret 0 00000003 00000000 00000000 00000000 00000000 00000000 00000000 00000007": "ERESUME: thread 1 is free",
    },
    "panic": {
        "mem 0 40000014 0c00ffff03000000": "ret OUT_OF_MEMORY; origin TEE",
        "mem 0 40000014 2430ffff03000000": "ret TARGET_DEAD; origin TEE",
        "mem 0 40000008 03000000": "session 3",
    },
    "registered_memory": {"mem 1 40000014 0d00ffff03000000": "ret BUSY; origin TEE"},
    "session": {
        "mem 0 40000008 01000000": "session 1",
        "mem 0 40000028 0c000000000000000000000000000000": "parameter 0: p 12, q 0",
        "mem 0 40000014 0600ffff03000000": "ret BAD_PARAMETERS; origin TEE",
    },
    "single_instance": {"mem 0 40000014 0500000004000000": "ret 00000005; origin TRUSTED_APP"},
    "storage": {
        "mem 0 40010200 31313131313131313232323233333333343434343535353535353535353535352f3431": (
            f"payload: {FIRST.replace('-', '')}/41"
        ),
        "mem 0 40010200 4f544f3204000000": "payload: an object's header, length 4",
        "mem 0 40010000 02000000000000000000000000000000000000000000ffff0000000002000000"
        "0100000000000000030000000000000006000000000000000000000000000000"
        "0a00000000000000000201400000000008000000000000007700000000000000": (
            "FsRead; cmd FS; ret GENERIC; num_params 2; parameter 0: value_in p 3, q 6, s 0; "
            "parameter 1: tmem_out p 0x40010200, q 8, s 0x77"
        ),
    },
    "thread_limit": {
        "ret 2 00000001 00000000 00000000 00000000 00000000 00000000 00000000 00000000": "ETHREAD_LIMIT",
        "mem 2 40000008 03000000": "session 3",
    },
    "wait_and_wake": {
        "ret 1 ffff0000 00001000 00000000 00000001 00000000 00000000 00000000 00000000": (
            "ALLOC of 4096 bytes, thread 1"
        ),
        "ret 1 ffff0005 00000000 00000088 00000001 00000000 00000000 00000000 00000000": "CMD, cookie 0x88, thread 1",
        "ret 1 ffff0002 00000000 00000088 00000001 00000000 00000000 00000000 00000000": "FREE, cookie 0x88, thread 1",
        "mem 1 40020000 04000000": "cmd NOTIFICATION",
        "mem 1 40020000 05000000": "Suspend; cmd SUSPEND",
    },
}

# A play that no example has: an address that isn't a multiple of 8; command 6; a cancel of a session that isn't there; and
# an invoke of such a session, whose argument lies where the cancel's could have parameters.
TRACE = """boot 1 1 1
smc 0 1 32000004 0 40000001 0 0 0 0 0
write 0 40000000 06000000
smc 0 1 32000004 0 40000000 0 0 0 0 0
write 0 40000000 0300000000000000090000000000000000000000000000000000000000000000
smc 0 1 32000004 0 40000000 0 0 0 0 0
write 0 40000020 0100000000000000090000000000000000000000000000000000000000000000
smc 0 1 32000004 0 40000020 0 0 0 0 0
show 0 40000020 32
show 0 40000000 32
"""
OUTPUT = """ret 0 00000004 00000000 00000000 00000000 00000000 00000000 00000000 00000000
ret 0 00000005 00000000 00000000 00000000 00000000 00000000 00000000 00000000
ret 0 00000000 00000000 00000000 00000000 00000000 00000000 00000000 00000000
ret 0 00000000 00000000 00000000 00000000 00000000 00000000 00000000 00000000
mem 0 40000020 01000000000000000900000000000000000000000600ffff0300000000000000
mem 0 40000000 03000000000000000900000000000000000000000600ffff0300000000000000
"""
OUTPUT_NOTES = [
    "EBADADDR",
    "EBADCMD",
    "OK",
    "OK",
    "cmd INVOKE_COMMAND; session 9; ret BAD_PARAMETERS; origin TEE",
    "cmd CANCEL; session 9; ret BAD_PARAMETERS; origin TEE",
]

# Another, as a script: an invoke with an area behind its one parameter, whose application waits. There stands the request,
# which goes out without a buffer; then the result of the invoke; and a call with a cookie that nothing has.
AREA_SCRIPT = f"""image waits ../../examples/applications/wait.hex
argument opens open {FIRST}
argument invokes invoke 1 250 value_inout 5 7
boot 1 1 1
ta {FIRST} $waits
mem 40000000 $opens
smc 0 9 CALL_WITH_RPC_ARG argument=40000000
write 0 40000000 $invokes
smc 0 9 CALL_WITH_RPC_ARG argument=40000000
show 0 40000040 64
show 0 40000014 8
smc 0 9 RETURN_FROM_RPC thread=0
show 0 40000014 8
smc 0 9 CALL_WITH_REGD_ARG a2=31
"""
AREA_OUTPUT = """ret 0 00000000 00000000 00000000 00000000 00000000 00000000 00000000 00000000
ret 0 ffff0005 00000000 00000000 00000000 00000000 00000000 00000000 00000000
mem 0 40000040 05000000000000000000000000000000000000000000ffff0000000001000000\
0100000000000000fa0000000000000000000000000000000000000000000000
mem 0 40000014 0000000000000000
ret 0 00000000 00000000 00000000 00000000 00000000 00000000 00000000 00000000
mem 0 40000014 0000000004000000
ret 0 00000004 00000000 00000000 00000000 00000000 00000000 00000000 00000000
"""
AREA_NOTES = [
    "OK",
    "CMD, cookie 0x0, thread 0",
    "Suspend; cmd SUSPEND; ret GENERIC; num_params 1; parameter 0: value_in p 250, q 0, s 0",
    "ret SUCCESS",
    "OK",
    "ret SUCCESS; origin TRUSTED_APP",
    "EBADADDR",
]

# Traces that are none, with outputs that aren't theirs.
NO_PLAYS = [
    ("boot 1 1 1\nshow 0 x 1\n", "mem 0 40000000 00\n"),
    ("boot 1 1 1\nshow 0 40000000 x\n", "mem 0 40000000 00\n"),
    ("boot 1 1 1\nleave 0\n", "ret 0" + 8 * " 00000000" + "\n"),
    ("boot 1 1 1\nsmc * 1 x 0 0 0 0 0 0 0\n", "ret *" + 8 * " 00000000" + "\n"),
]

# What answers.py counts, without the totals.
COUNTS = {
    "cancel": ["7 OK", "3 CMD", "1 ALLOC", "1 FREE", "1 INTERRUPT", "2 SUCCESS of TEE", "2 CANCEL of TRUSTED_APP"],
    "fast_calls": ["3 OK", "3 ENOTAVAIL", "1 UNKNOWN_FUNCTION", "1 ERESUME"]
    + ["1 CALLS_UID", "1 CALLS_REVISION", "1 GET_OS_UUID", "1 GET_OS_REVISION"],
    "panic": ["9 OK", "1 OUT_OF_MEMORY of TEE", "2 TARGET_DEAD of TEE", "1 SUCCESS of TRUSTED_APP"]
    + ["1 SUCCESS of TEE", "1 BAD_PARAMETERS of TEE"],
    "registered_memory": ["11 OK", "2 SUCCESS of TEE", "1 SUCCESS of TRUSTED_APP", "1 SHORT_BUFFER of TRUSTED_APP"]
    + ["2 BAD_PARAMETERS of TEE", "1 BUSY of TEE"],
    "wait_and_wake": ["3 OK", "3 ALLOC", "4 CMD", "2 FREE", "1 OUT_OF_MEMORY of TRUSTED_APP"]
    + ["1 SUCCESS of TRUSTED_APP"],
}

# Of a panic's code, which an application in C may have given itself, at which lines it has.
OWN_PANICS = {
    "pin": (0xFFFF0003, "at number_of sdk/runtime/objects.c:27"),
    "hello": (5, "no such parameter, or an object handle that isn't open"),
}

# Lines that step.py prints of applications in C: where it comes to a line of the source, and at which line of it a panic is.
STEPS_IN_C = {
    "hello create open invoke 1 vio:29:7": [
        "-- increment hello_ta.c:30",
        "-- increment hello_ta.c:31",
    ],
    "tally create open invoke 0 vio:1:1 r2=50000000": [
        "-- add tally_ta.c:14",
        "invoke panics with 00000001 at 359: an address outside the memory and the buffers, or bytes that leave them (add tally_ta.c:14)",
    ],
}

# What step.py prints of shipped applications, or the last lines of it: the steps of an invoke that one_step_at_a_time shows to
# be six; a panic for want of a parameter, and one of the application's own; copied bytes; a count that is kept; cancelled waits.
STEPS = {
    "add invoke 0 vio:5:7": (
        0,
        """invoke begins with 00000000 00000003 00000000
    1    1  const r0 0
    2    2  sys 3                     value (0 3 0)  r0 00000005  r1 00000007
    3    3  add r1 r0 r1              r1 0000000c
    4    4  const r0 0                r0 00000000
    5    5  sys 4                     set value (0 c 0)  value 0 0000000c 00000000
    6    6  sys 0                     return (0 c 0)
invoke returns 00000000 0000000c in 6 steps v:0000000c:00000000
""",
    ),
    "add invoke 0": (1, "invoke panics with 00000005 at 2: no such parameter, or an object handle that isn't open\n"),
    "panic open invoke 1 close": (1, "invoke panics with 00000001 at 3: by its own system call\n"),
    "copy invoke 0 mi:6162 mo:4": (0, "invoke returns 00000000 00000002 in 31 steps m:2:6162\n"),
    "copy invoke 0 mi:6162 mo:1": (0, "invoke returns ffff0010 00000002 in 14 steps m:2:\n"),
    "counter invoke 0 vo invoke 0 vo": (0, "invoke returns 00000000 00000002 in 39 steps v:00000002:00000000\n"),
    "wait_unmasked invoke fa cancelled": (0, "invoke returns ffff0002 00000000 in 5 steps\n"),
    "wait invoke fa cancelled": (0, "invoke returns 00000000 00000000 in 2 steps\n"),
    "mark invoke 0 invoke 0 r2=1": (0, "invoke returns 00000005 00000000 in 5 steps\n"),
}

# Lines that step.py prints of texts for the assembler: where it comes to another label, a line of the text, and where a panic is.
STEPS_OF_TEXTS = {
    "counter invoke 0 vo": [
        "-- COUNT counter.s:19",
        "    2    3  bne r1 r3 BAD_PARAMETERS",
        "    3    4  const r3 0x6e756f63       r3 6e756f63",
        "-- OPENED counter.s:41",
    ],
    "add invoke 0": [
        "-- SUM add.s:17",
        "invoke panics with 00000005 at 2: no such parameter, or an object handle that isn't open (SUM add.s:20)",
    ],
}

# What bench_test.py says of a client's script, by what the program has printed for it and its status.
CLIENT_TESTS = {
    f"boot 1 2 1\nopen s {FIRST}\n#= open s SUCCESS TRUSTED_APP\nclose s\n#= close s SUCCESS TEE\n": (
        "open s ffff0008 00000003\nclose s ffff0006 00000003\n",
        0,
        [
            f"x.client:2: open s {FIRST}",
            "    wanted open s SUCCESS TRUSTED_APP",
            "           = SUCCESS of TRUSTED_APP",
            "    got    open s ffff0008 00000003",
            "           = ITEM_NOT_FOUND of TEE",
            "    differs: result: ffff0008 (ITEM_NOT_FOUND), not 00000000 (SUCCESS); origin: 00000003 (TEE), not 00000004 (TRUSTED_APP)",
            "x.client:4: close s",
            "    wanted close s SUCCESS TEE",
            "           = SUCCESS of TEE",
            "    got    close s ffff0006 00000003",
            "           = BAD_PARAMETERS of TEE",
            "    differs: result: ffff0006 (BAD_PARAMETERS), not 00000000 (SUCCESS)",
        ],
    ),
    f"boot 1 2 1\nopen s {FIRST}\n#= open s SUCESS TEE\n": (
        "open s ffff0008 00000003\n",
        0,
        [
            f"x.client:2: open s {FIRST}",
            "    wanted open s SUCESS TEE",
            "           SUCESS is no result of docs/formats.md, and no eight hexadecimal digits in small letters",
            "    got    open s ffff0008 00000003",
            "           = ITEM_NOT_FOUND of TEE",
        ],
    ),
    f"open s {FIRST}\n#= open s 00000000 00000004\n": (
        "bad trace 1 place\n",
        3,
        [
            f"x.client:1: open s {FIRST}",
            "    got    bad trace, place: no boot line before, a second one, or a ta or mem line behind a line of another kind",
        ],
    ),
}

# A script of a client whose application waits, and is cancelled then; and what client_trace.py says of it to a core, each line with what the
# core answers, if it answers lines, as docs/formats.md has the client's RAM, the requests of a call and its end.
CLIENT_SCRIPT = f"""image waits ../../examples/applications/wait_unmasked.hex
# A wait.
boot 1 2 1
ta {FIRST} $waits
open s {FIRST}
#= open s SUCCESS TRUSTED_APP
invoke s fa cancel:2 vo
"""
CLIENT_OPEN = (  # of cancel id 1
    ("00000000 00000000 00000000 01000000 00000000 00000000 00000000 02000000" + "0101000000000000 1111111122223333 4444555555555555")
    + NO_BYTES + "0101000000000000" + 3 * NO_BYTES
).replace(" ", "")
CLIENT_INVOKE = ("01000000 fa000000 01000000 01000000 00000000 00000000 00000000 01000000" + "0200000000000000" + 3 * NO_BYTES).replace(" ", "")
CLIENT_CANCEL = "03000000 00000000 01000000 01000000 00000000 00000000 00000000 00000000".replace(" ", "")
SUSPEND = (
    "05000000 00000000 00000000 00000000 00000000 0000ffff 00000000 01000000" + "0100000000000000 fa00000000000000" + 2 * NO_BYTES
).replace(" ", "")
OK = "ret 0" + 8 * " 00000000"
RETURNED = "smc 0 10000 32000003 0 0 0 0 0 0 0"
CALLED = "smc 0 10000 32000004 0 {address} 0 0 0 0 0"
CLIENT_TURNS = [
    ("# A wait.", None),
    ("boot 1 2 1", None),
    (f"ta {FIRST} {{image}}", None),
    (f"# open s {FIRST}", None),
    ("write 0 40000000 " + CLIENT_OPEN, None),
    (CALLED.format(address="40000000"), OK),
    ("show 0 40000000 96", "mem 0 40000000 " + CLIENT_OPEN[:16] + "01000000" + CLIENT_OPEN[24:40] + "0000000004000000" + CLIENT_OPEN[56:]),
    ("# open s 00000000 00000004", None),
    ("# invoke s fa cancel:2 vo", None),
    ("write 0 40000000 " + CLIENT_INVOKE, None),
    (CALLED.format(address="40000000"), "ret 0 ffff0000 00001000" + 6 * " 00000000"),
    ("# return 1 of invoke s: ALLOC", None),
    ("smc 0 10000 32000003 0 40010000 0 0 1 0 0", "ret 0 ffff0005 00000000 00000001 00000000 00000000 00000001 00000000 00000000"),
    ("# return 2 of invoke s: CMD", None),
    ("# a cancel of invoke s", None),
    ("write 0 40001000 " + CLIENT_CANCEL, None),
    (CALLED.format(address="40001000"), OK),
    ("show 0 40010000 128", "mem 0 40010000 " + SUSPEND + 192 * "0"),
    ("write 0 40010014 00000000", None),
    (RETURNED, "ret 0 ffff0002 00000000 00000001" + 5 * " 00000000"),
    ("# return 3 of invoke s: FREE", None),
    (RETURNED, OK),
    ("show 0 40000000 64", "mem 0 40000000 " + CLIENT_INVOKE[:40] + "0200ffff04000000" + CLIENT_INVOKE[56:]),
    ("# invoke s ffff0002 00000004 v:00000000:00000000", None),
]

# Lines of a conversation that were taken, and the trace that is kept behind each.
KEPT = {
    "# two processors": "# two processors\n",
    "boot 2 1 1": "# two processors\nboot 2 1 1\n",
    "watch on": "# two processors\nboot 2 1 1\n",
    "enter 1 9 b2000000": "# two processors\nboot 2 1 1\nenter 1 9 b2000000\nleave 1\n",
    "state": "# two processors\nboot 2 1 1\nenter 1 9 b2000000\nleave 1\n",
    "signal 3": "# two processors\nboot 2 1 1\nenter 1 9 b2000000\nsignal 3\nleave 1\n",
    "enter 0 1 0": "# two processors\nboot 2 1 1\nenter 1 9 b2000000\nsignal 3\nenter 0 1 0\nleave 1\nleave 0\n",
    "leave 1": "# two processors\nboot 2 1 1\nenter 1 9 b2000000\nsignal 3\nenter 0 1 0\nleave 1\nleave 0\n",
    "leave 0": "# two processors\nboot 2 1 1\nenter 1 9 b2000000\nsignal 3\nenter 0 1 0\nleave 1\nleave 0\n",
    "history off": "# two processors\nboot 2 1 1\nenter 1 9 b2000000\nsignal 3\nenter 0 1 0\nleave 1\nleave 0\n",
}

# Words that each tool has to refuse, and scripts that lift.py has to refuse at their second line.
BAD_WORDS = {
    "crates.py": ["", "draw", "drawing definitions", "definitions x"],
    "arg.py": [
        "",
        "opens",
        "open",
        "open 1111",
        "close",
        "close 1 2",
        "close x",
        "close 4294967296",
        "close 01",
        "cancel 1",
        "invoke 1 0 value",
        "invoke 1 0 value_in 1",
        "invoke 1 0 tmem_in 4000000g 1",
        "invoke 1 0" + 7 * " none",
        "register 1 2",
        "reply",
        "reply x",
        "reply time 1",
        "reply bytes 1",
        "reply ret WRONG",
    ],
    "annotate.py": ["", "a", "a b c", "no_such_file no_such_file"],
    "answers.py": ["", "a", "a b c", "no_such_file no_such_file"],
    "image.py": ["x", "comments x", "map=no_such_file", "map=../README.md"],
    "explain.py": ["", "a b", "no_such_file", "program=no_such_file a", "compare", "compare 1", "compare 01 a", "compare 1 a b c"],
    "lift.py": ["", "a b", "no_such_file"],
    "check.py": ["x"],
    "chart.py": ["", "a b c", "program=no_such_file a", "no_such_file no_such_file"],
    "client_test.py": ["", "program=no_such_file examples"],
    "bench_test.py": ["", "program=no_such_file examples", "no_such_file", "-j"],
    "client_trace.py": ["", "a b", "program=no_such_file README.md", "steps=0 README.md", "steps=x README.md"],
    "known.py": [""],
    "known_live.py": ["x"],
    "live.py": ["x", "serve serve", "program=no_such_file", "boot=no_such_file", "log=no_such_folder/x", "log=", "boot="],
    "live_test.py": ["x", "program=no_such_file", "turns=999", "turns=many"],
    "step.py": ["", "-", "- opens", "- invoke", "- invoke x", "- close vo", "- invoke 0 vi:1", "- open mi:", "- open r16=0"],
}
# Calls on a supplicant's files, one after the other, and what each gives.
FILES = [
    (("open", b"a"), "ITEM_NOT_FOUND"),
    (("remove", b"a"), "ITEM_NOT_FOUND"),
    (("create", b"a"), 0),
    (("create", b"a"), "ACCESS_CONFLICT"),
    (("open", b"a"), 1),
    (("read", 0, 0, 8), b""),
    (("write", 0, 2, b"xy"), None),
    (("read", 1, 0, 8), b"\0\0xy"),
    (("read", 1, 3, 1), b"y"),
    (("read", 1, 9, 1), b""),
    (("write", 1, 2**20 - 1, b"z"), None),
    (("write", 1, 2**20, b"z"), "BAD_PARAMETERS"),
    (("close", 2), "BAD_PARAMETERS"),
    (("close", 0), None),
    (("close", 0), "BAD_PARAMETERS"),
    (("create", b"b"), 0),
    (("remove", b"a"), None),
    (("read", 1, 0, 1), "ITEM_NOT_FOUND"),
    (("write", 1, 2**20, b"z"), "ITEM_NOT_FOUND"),
    (("read", 7, 0, 1), "BAD_PARAMETERS"),
    (("close", 1), None),
    (("open", b"b"), 1),
]
# Lines of an input that is a script's, and of each the status, what is printed, and what is said.
PROMPTED = {
    "name N": (1, "", "live.py: line 2: name N: the name N stands for no words\n"),
    "name N 1\nargument N close 1": (1, "", "live.py: line 3: argument N close 1: line 2 gives the name N already\n"),
    "smc 0 1 CALLS": (1, "", "live.py: line 2: smc 0 1 CALLS: CALLS is no function\n"),
    "smc 0 1 CALLS_UID": (
        0,
        "> smc 0 1 bf00ff01 0 0 0 0 0 0 0\n< ret 0 384fb3e0 e7f811e3 af630002 a5d5c51b 00000000 00000000 00000000 00000000\n< ok\n",
        "",
    ),
}
# Notes that are wanted, of each one that comes in its place, and what then differs.
OTHER_NOTES = [
    ("OK", "OK, capabilities: DYNAMIC_SHM, MEMREF_NULL", "3 parts more came, from `capabilities` on, which `..` at the end would leave out"),
    ("OK, threads 1", "OK", "1 part fewer came, from `threads 1` on"),
    ("OK, threads 12..", "OK, threads 1", "threads: 1, not 12"),
    ("OK", "EBUSY", "EBUSY, not OK"),
    ("OK, threads 1", "ERESUME: thread 0 is free", "ERESUME, not OK"),
    ("ret SUCCESS; origin TEE", "ret SUCCESS; origin TRUSTED_APP", "origin: TRUSTED_APP, not TEE"),
    ("ret SUCCESS; origin TEE", "ret BUSY; origin TRUSTED_APP; session 1", "ret: BUSY, not SUCCESS; origin: TRUSTED_APP, not TEE; 1 part more came, "),
    ("CMD, cookie 0x77, thread 0", "CMD, cookie 0x77, thread 1", "thread: 1, not 0"),
    ("ALLOC of 4096 bytes..", "ALLOC of 64 bytes, thread 0", "ALLOC of: 64 bytes, not 4096 bytes"),
    ("OK ..", "OK, threads 1", "from character 2 on `, threads 1`, not ` ..`"),
]
BAD_SCRIPTS = [
    "name",
    "name WITHOUT_WORDS",
    "smc 0 1 GET_THREADS",
    "smc 0 1 CALL_WITH_ARG x=1",
    "smc 0 1 CALL_WITH_ARG argument=x",
    "smc 0 1 RETURN_FROM_RPC thread=last last",
    "write 0 40000000 $nothing",
    "argument a opens",
    "smc 0 1 CALL_WITH_ARG argument=40000000 argument=40001000",
    "smc 0 1 CALL_WITH_ARG argument=40000000 buffer=40000000",
    "smc 0 1 CALL_WITH_REGD_ARG cookie=77 a5=1",
    "argument a invoke 1 0 id 1 id 2",
    "image a no_such_file",
    "reply 0 40010000 x",
    "smc 0",
]

# Resumes that are refused for each cause, as if session 7 were open: an invoke of client 1 is interrupted in thread 0, then another one
# is inside in thread 1.
CAUSES_TRACE = """boot 3 2 1
mem 40000000 01000000050000000700000000000000000000000000000000000000000000000000
smc 0 1 32000003 0 0 2 0 0 0 1
smc 0 1 32000003 0 0 1 0 0 0 1
smc 0 1 32000004 0 40000000 0 0 0 0 1
smc 1 1 32000003 0 0 0 0 0 0 2
enter 2 1 32000004 0 40000000 0 0 0 0 3
smc 1 1 32000003 0 0 1 0 0 0 3
smc 1 1 32000013 0 5 0 0 0 0 3
smc 1 1 b2000000 0 0 0 0 0 0 0
leave 2
"""
CAUSES_OUTPUT = """ret 0 00000003 00000000 00000000 00000000 00000000 00000000 00000000 00000001
ret 0 00000003 00000000 00000000 00000000 00000000 00000000 00000000 00000001
ret 0 ffff0004 00000000 00000000 00000000 00000000 00000000 00000000 00000001
ret 1 00000003 00000000 00000000 00000000 00000000 00000000 00000000 00000002
ret 1 00000003 00000000 00000000 00000000 00000000 00000000 00000000 00000003
ret 1 00000001 00000000 00000000 00000000 00000000 00000000 00000000 00000003
ret 1 486178e0 e7f811e3 bc5e0002 a5d5c51b 00000000 00000000 00000000 00000000
ret 2 00000000 00000000 00000000 00000000 00000000 00000000 00000000 00000003
"""
CAUSES = [
    "RETURN_FROM_RPC of client 1, thread 2",
    "ERESUME: there is no thread 2: they count from 0 to 1",
    "RETURN_FROM_RPC of client 1, thread 1",
    "ERESUME: thread 1 is free",
    "CALL_WITH_ARG of client 1, thread 0: invoke of function 5 in session 7",
    "INTERRUPT, thread 0",
    "RETURN_FROM_RPC of client 2, thread 0",
    "ERESUME: the call in thread 0 is another client's: it is of client 1, the resume of client 2",
    "CALL_WITH_ARG of client 3, thread 1: invoke of function 5 in session 7",
    "RETURN_FROM_RPC of client 3, thread 1",
    "ERESUME: thread 1 is active: its call is inside on processor 2",
    "CALL_WITH_REGD_ARG of client 3, no thread is free: an argument at 0 of the buffer of cookie 0x5",
    "ETHREAD_LIMIT",
    "GET_OS_UUID",
    "GET_OS_UUID 486178e0-e7f8-11e3-bc5e-0002a5d5c51b",
    "OK",
]

# Of the two journals of the case compare-session-with-another-input, which own event of session 1 each event is: an open and an invoke,
# which is interrupted five times in the second.
OWN_EVENTS = (
    ["open", "out of 0", "invoke of 5 and 7", "out of 1"],
    ["open", "out of 0", "invoke of 6 and 7", *10 * [None], "out of 1"],
)

# What explain.py says of both, of the second and a front of the first, and of this and the first: the verdict, and the lines between the events.
COMPARED = [
    [
        "events 2",
        "journal 1 has its own event 2 at event 2. What led there:",
        "journal 2 has its own event 2 at event 2. What led there:",
        "differs: parameter 0: value_inout 5, 7, 0 in journal 1, value_inout 6, 7, 0 in journal 2",
    ],
    [
        "events 2",
        "journal 1 has its own event 2 at event 2. What led there:",
        "journal 2 has no own event 2: its last one is event 1. What led there:",
        "differs: journal 2 ends before",
    ],
    [
        "events 2",
        "journal 1 has no own event 2: its last one is event 1. What led there:",
        "journal 2 has its own event 2 at event 2. What led there:",
        "differs: journal 1 ends before",
    ],
]

# What it says of the first one and itself, of which some bytes are others, by a verdict and its subject.
IMAGE_FRONT = "4f545441 00000000 01000000 07000000".replace(" ", "")
HEADERS_COMPARED = [
    (
        "other",
        FIRST,
        (IMAGE_FRONT, IMAGE_FRONT.replace("00000000", "04000000", 1)),
        ["differs: the image from byte 4 on: 0000000001000000.. in journal 1, 0400000001000000.. in journal 2"],
    ),
    ("absent 2", FIRST, ("11111111", "21111111"), ["journal 2: it is no application there"]),
    ("absent 1", FIRST, ("11111111", "11111111"), ["journal 1: each of its sessions has an instance of its own: compare their numbers"]),
    ("absent 2", "7", ("11111111", "11111111"), ["journal 2: no open was given this number"]),
    (
        "absent 2",
        "1",
        (IMAGE_FRONT, IMAGE_FRONT.replace("00000000", "04000000", 1)),
        [f"journal 2: no open was given this number, or it is of an application whose sessions share an instance: compare {FIRST}"],
    ),
]

# What explain.py names of events that are out of turn, and of reads that disagree, of cases.
TURNS = {
    "audit-of-an-exit-before-its-entry": "processor 0 is not inside: its entries and exits alternate",
    "audit-of-two-entries-of-one-processor": "processor 0 is inside already: its entries and exits alternate",
    "audit-of-reads-that-disagree": "two reads of this entry have different bytes at 40000000",
}
