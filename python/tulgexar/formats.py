"""The tables of docs/formats.md, by the names that it gives: for the other tools. It isn't run by itself."""

# SMC registers
CALL_WITH_ARG = 0x32000004
CALL_WITH_RPC_ARG = 0x32000012
CALL_WITH_REGD_ARG = 0x32000013
RETURN_FROM_RPC = 0x32000003
FUNCTIONS = {
    0xBF00FF01: "CALLS_UID",
    0xBF00FF03: "CALLS_REVISION",
    0xB2000000: "GET_OS_UUID",
    0xB2000001: "GET_OS_REVISION",
    0xB2000007: "GET_SHM_CONFIG",
    0xB2000009: "EXCHANGE_CAPABILITIES",
    0xB200000A: "DISABLE_SHM_CACHE",
    0xB200000B: "ENABLE_SHM_CACHE",
    0xB200000F: "GET_THREAD_COUNT",
    RETURN_FROM_RPC: "RETURN_FROM_RPC",
    CALL_WITH_ARG: "CALL_WITH_ARG",
    CALL_WITH_RPC_ARG: "CALL_WITH_RPC_ARG",
    CALL_WITH_REGD_ARG: "CALL_WITH_REGD_ARG",
}
YIELDING_FUNCTIONS = {"RETURN_FROM_RPC", "CALL_WITH_ARG", "CALL_WITH_RPC_ARG", "CALL_WITH_REGD_ARG"}
UUID_FUNCTIONS = {"CALLS_UID", "GET_OS_UUID"}
REVISION_FUNCTIONS = {"CALLS_REVISION", "GET_OS_REVISION"}
NOTIFY_FUNCTIONS = {0xB2000010: "ENABLE_ASYNC_NOTIF", 0xB2000011: "GET_ASYNC_NOTIF_VALUE"}  # of the word notify
CODES = {
    0: "OK",
    1: "ETHREAD_LIMIT",
    2: "EBUSY",
    3: "ERESUME",
    4: "EBADADDR",
    5: "EBADCMD",
    6: "ENOMEM",
    7: "ENOTAVAIL",
    0xFFFFFFFF: "UNKNOWN_FUNCTION",
}
RPCS = {0xFFFF0000: "ALLOC", 0xFFFF0002: "FREE", 0xFFFF0004: "INTERRUPT", 0xFFFF0005: "CMD"}
CAPABILITIES = [
    "reserved shared memory",
    "unregistered",
    "dynamic",
    "virtualization",
    "null reference",
    "asynchronous notification",
    "RPC argument",
]

# Glossary, "Lane": the RAM of the normal world as one processor sees it
RAM_START, RAM_BYTES = 0x4000_0000, 0x40_0000

# What an entry reads, and what an exit writes: bytes that all entries of a run, or of a core that keeps its history, read at most
MOST_READ = 1 << 28

# Message argument
HEAD_BYTES = PARAMETER_BYTES = 32
MOST_PARAMETERS = 6
COUNT_AT = 28
AREA_BYTES = 160  # behind the argument of a call that brings an area along
HEAD = ["cmd", "func", "session", "cancel_id", "pad", "ret", "ret_origin", "num_params"]
PARAMETER = ["attr", "p", "q", "s"]
COMMANDS = {
    0: "OPEN_SESSION",
    1: "INVOKE_COMMAND",
    2: "CLOSE_SESSION",
    3: "CANCEL",
    4: "REGISTER_SHM",
    5: "UNREGISTER_SHM",
    6: "DO_BOTTOM_HALF",
    7: "STOP_ASYNC_NOTIF",
}
KINDS = {
    0x0: "none",
    0x1: "value_in",
    0x2: "value_out",
    0x3: "value_inout",
    0x5: "rmem_in",
    0x6: "rmem_out",
    0x7: "rmem_inout",
    0x9: "tmem_in",
    0xA: "tmem_out",
    0xB: "tmem_inout",
}
META, NONCONTIG = 0x100, 0x200

# Messages to the normal world
RPC_COMMANDS = {2: "FS", 3: "GET_TIME", 4: "NOTIFICATION", 5: "SUSPEND"}
REQUESTS = {  # by the command and, where it has several, p of parameter 0
    (3, None): "Time",
    (4, 0): "Sleep",
    (4, 1): "Wake",
    (5, None): "Suspend",
    (2, 0): "FsOpen",
    (2, 1): "FsCreate",
    (2, 2): "FsClose",
    (2, 3): "FsRead",
    (2, 4): "FsWrite",
    (2, 6): "FsRemove",
}
BUFFER_BYTES, PAYLOAD_AT = 4096, 512
OBJECT_MAGICS = (b"OTO1", b"OTO2")

# Codes
RESULTS = {
    0x00000000: "SUCCESS",
    0xFFFF0000: "GENERIC",
    0xFFFF0001: "ACCESS_DENIED",
    0xFFFF0002: "CANCEL",
    0xFFFF0003: "ACCESS_CONFLICT",
    0xFFFF0006: "BAD_PARAMETERS",
    0xFFFF0007: "BAD_STATE",
    0xFFFF0008: "ITEM_NOT_FOUND",
    0xFFFF000A: "NOT_SUPPORTED",
    0xFFFF000C: "OUT_OF_MEMORY",
    0xFFFF000D: "BUSY",
    0xFFFF0010: "SHORT_BUFFER",
    0xFFFF3024: "TARGET_DEAD",
    0xF0100001: "CORRUPT_OBJECT",
    0xF0100003: "STORAGE_NOT_AVAILABLE",
}
ORIGINS = {1: "API", 2: "COMMS", 3: "TEE", 4: "TRUSTED_APP"}

# Image
IMAGE_MAGIC = b"OTTA"
IMAGE_HEAD_BYTES, INSTRUCTION_BYTES = 36, 8
FLAGS = 1 << 2 | 1 << 3 | 1 << 4
MOST_PAGES, MOST_INSTRUCTIONS, REGISTERS = 64, 8192, 16
ENTRIES = ["create", "open", "invoke", "close", "destroy"]
OPERATIONS = {  # the name and the fields; imm is a number, a target or a system call
    0x01: ("const", "d", "number"),
    0x02: ("move", "da", None),
    0x03: ("add", "dab", None),
    0x04: ("sub", "dab", None),
    0x05: ("mul", "dab", None),
    0x06: ("div", "dab", None),
    0x07: ("rem", "dab", None),
    0x08: ("and", "dab", None),
    0x09: ("or", "dab", None),
    0x0A: ("xor", "dab", None),
    0x0B: ("shl", "dab", None),
    0x0C: ("shr", "dab", None),
    0x0D: ("loadb", "da", "number"),
    0x0E: ("loadw", "da", "number"),
    0x0F: ("storeb", "ab", "number"),
    0x10: ("storew", "ab", "number"),
    0x11: ("beq", "ab", "target"),
    0x12: ("bne", "ab", "target"),
    0x13: ("bltu", "ab", "target"),
    0x14: ("bgeu", "ab", "target"),
    0x15: ("jump", "", "target"),
    0x16: ("call", "", "target"),
    0x17: ("ret", "", None),
    0x18: ("sys", "", "system call"),
}
SYSTEM_CALLS = [
    "return",
    "panic",
    "types",
    "value",
    "set value",
    "size",
    "set size",
    "login",
    "cancelled",
    "mask",
    "unmask",
    "time",
    "wait",
    "object create",
    "object open",
    "object read",
    "object write",
    "object seek",
    "object close",
    "object delete",
]

# Text trace: how many words each line has, and what a fault of each kind usually is
LINES = {"boot": 4, "ta": 3, "mem": 3, "key": 2, "smc": 11, "enter": 11, "leave": 2, "write": 4, "show": 4}
FAULTS = {
    "byte": "a tab, a carriage return (CRLF), or a character that isn't ASCII, in comments too",
    "cut": "the last line has no line feed",
    "item": "a first word that is no kind of line: misspelt, in capitals, or behind a blank",
    "count": "too few or too many words, two blanks, or a blank at the end",
    "place": "no boot line before, a second one, or a ta or mem line behind a line of another kind",
    "number": "a decimal with a leading zero or a letter, 0x before hexadecimal digits, or too many of them",
    "uuid": "a UUID without its hyphens, or with other digits",
    "hex": "an odd number of hexadecimal digits, 0x before them, or another character",
    "range": "a number outside its limits, or bytes outside RAM",
    "cpu": "the processor isn't below the first number of boot: they count from 0",
    "repeat": "a UUID that is loaded already, or that is built in",
    "name": "an open of a name that was opened before, also behind its close, or another call of one that wasn't",
    "image": "bytes that are no valid image: image.py says why",
    "inside": "an smc or enter between an enter of the processor and its leave, or a leave without an enter",
    "unended": "a processor has entered, and no leave follows",
    "asm": "a line that isn't of the assembler's form, or a label that is missing or stands twice",
}
