# Works in rounds, and can be cancelled between them.
#
# Invoke: as many rounds as the number of the function, each a wait of 100 milliseconds. Parameter 0, value out (type
# word 2), becomes the number of rounds that were done, also where the call was cancelled, whose result is FFFF0002.
# Other parameters give FFFF0006.
#
# Registers: r4 the rounds to do, r5 those that are done, r6 always 0, r7 the result.
.flags 0
.pages 1
.entry create NOTHING
.entry open NOTHING
.entry invoke ROUNDS
.entry close NOTHING
.entry destroy NOTHING
NOTHING:
const r0 0
sys 0
ROUNDS:
const r3 2
bne r1 r3 BAD_PARAMETERS
move r4 r0
const r5 0
const r7 0
const r8 1
# unmask: from here on a cancel is seen; gives the old mask in r0
sys 10
NEXT:
bgeu r5 r4 DONE
# wait: r0 milliseconds; gives the result in r0, FFFF0002 where the call was cancelled
const r0 100
sys 12
bne r0 r6 STOP
add r5 r5 r8
jump NEXT
STOP:
move r7 r0
DONE:
# mask: what is left isn't disturbed
sys 9
# set value: r0 = number of the parameter, a = r1, b = r2
const r0 0
move r1 r5
const r2 0
sys 4
move r0 r7
sys 0
BAD_PARAMETERS:
const r0 0xffff0006
sys 0
