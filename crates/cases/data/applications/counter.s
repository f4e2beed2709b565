# A counter whose count outlives its sessions: it is kept in a storage object.
#
# Invoke: adds one to the count, which begins at 0, and gives it in parameter 0, value out (type word 2). Other
# parameters give FFFF0006. The object has the id "count" and holds four bytes, the lowest first. Where a call on the
# object fails, its result is that of the invoke, and no count is given.
#
# Memory: 0 to 4 the id, 8 to 11 the count.
# Registers: r5 the handle, r6 always 0, r7 the result so far.
.flags 0
.pages 1
.entry create NOTHING
.entry open NOTHING
.entry invoke COUNT
.entry close NOTHING
.entry destroy NOTHING
NOTHING:
const r0 0
sys 0
COUNT:
const r3 2
bne r1 r3 BAD_PARAMETERS
# "coun" as a word, the lowest byte first, and "t".
const r3 0x6e756f63
storew r6 r3 0
const r3 0x74
storeb r6 r3 4
storew r6 r6 8
# object open: r0 = address of the id, r1 = its length; gives the result in r0 and the handle in r1
const r0 0
const r1 5
sys 14
beq r0 r6 OPENED
# FFFF0008 says that there is no such object: it is the first time. Any other result is handed on.
const r3 0xffff0008
bne r0 r3 END
# object create, with the same operands and answers
const r0 0
const r1 5
sys 13
bne r0 r6 END
OPENED:
move r5 r1
# object read: r0 = handle, r1 = address, r2 = length; gives the result in r0 and the number of bytes in r1. Of a new
# object none are read, and the count stays 0.
move r0 r5
const r1 8
const r2 4
sys 15
bne r0 r6 CLOSE
loadw r4 r6 8
const r3 1
add r4 r4 r3
storew r6 r4 8
# object seek: r0 = handle, r1 = position; gives the result in r0
move r0 r5
const r1 0
sys 17
# object write: r0 = handle, r1 = address, r2 = length; gives the result in r0
move r0 r5
const r1 8
const r2 4
sys 16
bne r0 r6 CLOSE
# set value: r0 = number of the parameter, a = r1, b = r2
const r0 0
move r1 r4
const r2 0
sys 4
const r0 0
CLOSE:
move r7 r0
# object close: r0 = handle; the handle is given back, whatever the result is
move r0 r5
sys 18
move r0 r7
END:
sys 0
BAD_PARAMETERS:
const r0 0xffff0006
sys 0
