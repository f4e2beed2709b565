# Leaves a mark in its memory.
#
# Invoke: returns the word at address 0 as its result, and stores 5 there. So the first invoke of an instance returns 0,
# and each later one 5, as long as the instance's page lives.
.flags 0
.pages 1
.entry create NOTHING
.entry open NOTHING
.entry invoke MARK
.entry close NOTHING
.entry destroy NOTHING
NOTHING:
sys 0
# r6 is 0, the address.
MARK:
const r4 5
loadw r5 r6 0
storew r6 r4 0
move r0 r5
sys 0
