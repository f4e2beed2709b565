# Writes one byte of a buffer, and says how large the output is.
#
# Invoke: parameter 0 is memory for output. Stores 41 (hexadecimal) in its first byte, and sets its size to the number
# of the function. A buffer of no bytes is panic 1, since no byte is at its address.
.flags 0
.pages 1
.entry create NOTHING
.entry open NOTHING
.entry invoke FILL
.entry close NOTHING
.entry destroy NOTHING
NOTHING:
sys 0
FILL:
move r1 r0
const r0 0
const r2 0x41
# The buffer of parameter 0 is at 10000000 (hexadecimal), that of parameter 1 at 20000000, and so on.
const r3 0x10000000
storeb r3 r2 0
# set size: r0 = number of the parameter, r1 = the size
sys 6
sys 0
