# Creates a storage object.
#
# Invoke: creates the object whose id is the one byte 41 (hexadecimal), and returns the result. The handle is left open.
.flags 0
.pages 1
.entry create NOTHING
.entry open NOTHING
.entry invoke STORE
.entry close NOTHING
.entry destroy NOTHING
NOTHING:
sys 0
STORE:
# The id is put at address 0: r3 is 0.
const r2 0x41
storeb r3 r2 0
# object create: r0 = address of the id, r1 = its length; gives the result in r0 and the handle in r1
const r0 0
const r1 1
sys 13
sys 0
