# Adds the two numbers of a value parameter.
#
# Invoke, any function: parameter 0, value inout (attribute 3), holds a and b, and becomes a + b and 0.
# Without such a parameter 0 it panics with code 5.
.flags 0
.pages 1
.entry create NOTHING
.entry open NOTHING
.entry invoke SUM
.entry close NOTHING
.entry destroy NOTHING
# An entry point starts with all registers 0 but those that it is given. r0 is the result that it returns: at create,
# close and destroy 0. At open r0 is given the type word, so an open with parameters would be answered with that.
NOTHING:
sys 0
# An invoke is given the function in r0, the type word in r1 and the session's context in r2.
SUM:
const r0 0
# value: r0 = number of the parameter; gives a in r0 and b in r1
sys 3
add r1 r0 r1
const r0 0
# set value: r0 = number of the parameter, a = r1, b = r2. r2 is still the context, and that is what r1 was when the
# open returned: 0.
sys 4
# return: r0 = 0, success
sys 0
