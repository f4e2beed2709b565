# Lists the devices on the bus of trusted applications, as the pseudo application of OP-TEE does that Linux asks at its probe.
#
# Invoke, function 0: parameter 0 is memory for output (type word 6), which becomes the UUID of the one device there is,
# 16 octets; where it is smaller its size becomes 16, and the result is FFFF0010. Function 1, the devices that need the
# supplicant: none, and the size becomes 0. Other parameters give FFFF0006.
.flags 0
.pages 1
.entry create NOTHING
.entry open NOTHING
.entry invoke LIST
.entry close NOTHING
.entry destroy NOTHING
NOTHING:
const r0 0
sys 0
LIST:
const r3 6
bne r1 r3 BAD_PARAMETERS
const r6 0
bne r0 r6 NONE
# size: r0 = number of the parameter; gives the size in r0
const r0 0
sys 5
move r5 r0
# set size: r0 = number of the parameter, r1 = the size
const r0 0
const r1 16
sys 6
bltu r5 r1 SHORT
# The octets in the order of the UUID's fields, as words, the lowest byte first: 1f000000-0000-4000-8000-000000000001.
const r8 0x10000000
const r9 0x0000001f
storew r8 r9 0
const r9 0x00400000
storew r8 r9 4
const r9 0x00000080
storew r8 r9 8
const r9 0x01000000
storew r8 r9 12
const r0 0
sys 0
NONE:
const r0 0
const r1 0
sys 6
const r0 0
sys 0
SHORT:
const r0 0xffff0010
sys 0
BAD_PARAMETERS:
const r0 0xffff0006
sys 0
