# UUID 6f2a1c00-31d5-4b7e-9c41-0d5e8a772105
.flags 0
.pages 1
.entry create entry_create
.entry open entry_open
.entry invoke entry_invoke
.entry close entry_close
.entry destroy entry_destroy
L0:
# take sdk/runtime/entry.c:13
move r4 r0
move r5 r1
# take sdk/runtime/entry.c:14
const r2 0
const r7 4
L4:
# take sdk/runtime/entry.c:17
and r3 r4 r8
move r0 r2
# take sdk/runtime/entry.c:19
add r2 r2 r15
# take sdk/runtime/entry.c:17
beq r3 r12 L17
# take sdk/runtime/entry.c:18
sys 5
move r1 r0
# take sdk/runtime/entry.c:19
const r14 28
shl r3 r2 r14
L11:
# take sdk/runtime/entry.c:23
storew r5 r3 0
# take sdk/runtime/entry.c:24
storew r5 r1 4
# take sdk/runtime/entry.c:14
shr r4 r4 r8
add r5 r5 r6
bne r2 r7 L4
# take sdk/runtime/entry.c:26
ret
L17:
# take sdk/runtime/entry.c:20
const r14 3
and r3 r4 r14
# take sdk/runtime/entry.c:15
const r1 0
# take sdk/runtime/entry.c:20
beq r3 r12 L11
# take sdk/runtime/entry.c:21
sys 3
move r3 r0
jump L11
L23:
# give sdk/runtime/entry.c:30
move r5 r0
move r4 r1
# give sdk/runtime/entry.c:31
const r0 0
L26:
bne r5 r12 L28
# give sdk/runtime/entry.c:39
ret
L28:
# give sdk/runtime/entry.c:32
const r14 2
and r3 r5 r14
beq r3 r12 L35
# give sdk/runtime/entry.c:34
and r3 r5 r8
# give sdk/runtime/entry.c:35
loadw r2 r4 4
# give sdk/runtime/entry.c:34
beq r3 r12 L39
# give sdk/runtime/entry.c:35
move r1 r2
sys 6
L35:
# give sdk/runtime/entry.c:31
add r0 r0 r15
shr r5 r5 r8
add r4 r4 r6
jump L26
L39:
# give sdk/runtime/entry.c:37
loadw r1 r4 0
sys 4
jump L35
entry_create:
# __ta_create sdk/runtime/entry.c:43
const r0 0
sys 0
entry_open:
# (setup)
call setup
# __ta_open sdk/runtime/entry.c:47
const r14 44
sub r11 r11 r14
# __ta_open sdk/runtime/entry.c:52
move r1 r11
# __ta_open sdk/runtime/entry.c:47
storew r11 r9 36
move r9 r0
# __ta_open sdk/runtime/entry.c:52
call L0
# __ta_open sdk/runtime/entry.c:54
move r1 r11
move r0 r9
call L23
# __ta_open sdk/runtime/entry.c:55
const r0 0
const r1 0
sys 0
entry_invoke:
# (setup)
call setup
# __ta_invoke sdk/runtime/entry.c:59
const r14 44
sub r11 r11 r14
storew r11 r10 32
move r10 r1
storew r11 r9 36
# __ta_invoke sdk/runtime/entry.c:63
move r1 r11
# __ta_invoke sdk/runtime/entry.c:59
move r9 r0
# __ta_invoke sdk/runtime/entry.c:63
move r0 r10
call L0
# TA_InvokeCommandEntryPoint countdown_ta.c:51
const r5 3
bne r10 r5 L110
# TA_InvokeCommandEntryPoint countdown_ta.c:53
beq r9 r12 L77
beq r9 r15 L91
const r9 4294901770
L72:
# __ta_invoke sdk/runtime/entry.c:65
move r0 r10
move r1 r11
call L23
# __ta_invoke sdk/runtime/entry.c:66
move r0 r9
sys 0
L77:
# TA_InvokeCommandEntryPoint countdown_ta.c:55
sys 10
# TA_InvokeCommandEntryPoint countdown_ta.c:56
loadw r4 r11 4
L79:
# count_down countdown_ta.c:10
loadw r5 r11 0
bne r5 r12 L83
L81:
# TA_InvokeCommandEntryPoint countdown_ta.c:53
const r9 0
jump L72
L83:
# count_down countdown_ta.c:11
move r0 r4
sys 12
move r9 r0
# count_down countdown_ta.c:12
bne r0 r12 L72
# count_down countdown_ta.c:13
loadw r5 r11 0
sub r5 r5 r15
storew r11 r5 0
jump L79
L91:
# TA_InvokeCommandEntryPoint countdown_ta.c:58
loadw r4 r11 4
L92:
# count_down countdown_ta.c:10
loadw r5 r11 0
bne r5 r12 L100
# count_down_masked countdown_ta.c:22
sys 10
# count_down_masked countdown_ta.c:23
sys 8
beq r0 r12 L81
const r9 4294901762
jump L72
L100:
# count_down countdown_ta.c:11
move r0 r4
sys 12
move r9 r0
# count_down countdown_ta.c:12
beq r0 r12 L106
# count_down_masked countdown_ta.c:22
sys 10
# count_down_masked countdown_ta.c:23
jump L72
L106:
# count_down countdown_ta.c:13
loadw r5 r11 0
sub r5 r5 r15
storew r11 r5 0
jump L92
L110:
# TA_InvokeCommandEntryPoint countdown_ta.c:52
const r9 4294901766
jump L72
entry_close:
# __ta_close sdk/runtime/entry.c:74
const r0 0
sys 0
entry_destroy:
# __ta_destroy sdk/runtime/entry.c:80
const r0 0
sys 0
setup:
# (setup)
const r11 512
const r15 1
const r8 4
const r6 8
ret
