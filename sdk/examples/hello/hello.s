# UUID 6f2a1c00-31d5-4b7e-9c41-0d5e8a772101
.flags 0
.pages 1
.entry create entry_create
.entry open entry_open
.entry invoke entry_invoke
.entry close entry_close
.entry destroy entry_destroy
L0:
# take sdk/runtime/entry.c:13
move r4 r0
move r5 r1
# take sdk/runtime/entry.c:14
const r2 0
const r7 4
L4:
# take sdk/runtime/entry.c:17
and r3 r4 r15
move r0 r2
# take sdk/runtime/entry.c:19
const r14 1
add r2 r2 r14
# take sdk/runtime/entry.c:17
beq r3 r12 L17
# take sdk/runtime/entry.c:18
sys 5
move r1 r0
# take sdk/runtime/entry.c:19
const r13 28
shl r3 r2 r13
L11:
# take sdk/runtime/entry.c:23
storew r5 r3 0
# take sdk/runtime/entry.c:24
storew r5 r1 4
# take sdk/runtime/entry.c:14
shr r4 r4 r15
const r14 8
add r5 r5 r14
bne r2 r7 L4
# take sdk/runtime/entry.c:26
ret
L17:
# take sdk/runtime/entry.c:20
const r13 3
and r3 r4 r13
# take sdk/runtime/entry.c:15
const r1 0
# take sdk/runtime/entry.c:20
beq r3 r12 L11
# take sdk/runtime/entry.c:21
sys 3
move r3 r0
jump L11
L23:
# give sdk/runtime/entry.c:30
move r5 r0
move r4 r1
# give sdk/runtime/entry.c:31
const r0 0
L26:
bne r5 r12 L28
# give sdk/runtime/entry.c:39
ret
L28:
# give sdk/runtime/entry.c:32
const r14 2
and r3 r5 r14
beq r3 r12 L35
# give sdk/runtime/entry.c:34
and r3 r5 r15
# give sdk/runtime/entry.c:35
loadw r2 r4 4
# give sdk/runtime/entry.c:34
beq r3 r12 L39
# give sdk/runtime/entry.c:35
move r1 r2
sys 6
L35:
# give sdk/runtime/entry.c:31
const r14 1
add r0 r0 r14
shr r5 r5 r15
const r13 8
add r4 r4 r13
jump L26
L39:
# give sdk/runtime/entry.c:37
loadw r1 r4 0
sys 4
jump L35
entry_create:
# (data)
const r13 2108527
storew r12 r13 1028
const r13 1819043144
storew r12 r13 1024
# __ta_create sdk/runtime/entry.c:43
const r0 0
sys 0
entry_open:
# (setup)
call setup
# __ta_open sdk/runtime/entry.c:47
const r14 44
sub r11 r11 r14
# __ta_open sdk/runtime/entry.c:52
move r1 r11
# __ta_open sdk/runtime/entry.c:47
storew r11 r9 36
move r9 r0
# __ta_open sdk/runtime/entry.c:52
call L0
# __ta_open sdk/runtime/entry.c:54
move r1 r11
move r0 r9
call L23
# __ta_open sdk/runtime/entry.c:55
const r0 0
const r1 0
sys 0
entry_invoke:
# (setup)
call setup
# __ta_invoke sdk/runtime/entry.c:59
const r14 48
sub r11 r11 r14
storew r11 r10 36
move r10 r1
storew r11 r9 40
# __ta_invoke sdk/runtime/entry.c:63
add r1 r11 r15
# __ta_invoke sdk/runtime/entry.c:59
move r9 r0
# __ta_invoke sdk/runtime/entry.c:63
move r0 r10
call L0
# TA_InvokeCommandEntryPoint hello_ta.c:59
beq r9 r12 L75
const r5 1
beq r9 r5 L95
const r9 4294901770
L70:
# __ta_invoke sdk/runtime/entry.c:65
move r0 r10
add r1 r11 r15
call L23
# __ta_invoke sdk/runtime/entry.c:66
move r0 r9
sys 0
L75:
# greet hello_ta.c:16
const r5 101
bne r10 r5 L105
# greet hello_ta.c:13
loadw r5 r11 8
# greet hello_ta.c:14
loadw r3 r11 16
# greet hello_ta.c:13
const r14 7
add r4 r5 r14
storew r11 r5 0
# greet hello_ta.c:18
storew r11 r4 16
# greet hello_ta.c:19
bltu r3 r4 L102
# greet hello_ta.c:21
loadw r9 r11 12
const r2 7
const r1 1024
move r0 r9
call L136
# greet hello_ta.c:22
loadw r5 r11 0
loadw r1 r11 4
const r14 7
add r0 r9 r14
move r2 r5
call L136
L93:
# increment hello_ta.c:31
const r9 0
jump L70
L95:
# increment hello_ta.c:28
const r9 15
and r5 r10 r9
const r4 3
bne r5 r4 L105
# increment hello_ta.c:30
loadw r5 r11 4
const r14 1
add r5 r5 r14
storew r11 r5 4
# increment hello_ta.c:31
jump L93
L102:
# greet hello_ta.c:20
const r9 4294901776
jump L70
L105:
# greet hello_ta.c:17
const r9 4294901766
jump L70
entry_close:
# __ta_close sdk/runtime/entry.c:74
const r0 0
sys 0
entry_destroy:
# __ta_destroy sdk/runtime/entry.c:80
const r0 0
sys 0
L112:
# memcpy sdk/runtime/memory.c:12
const r5 0
const r4 3
L114:
sub r3 r2 r5
bltu r4 r3 L123
const r14 2
shr r4 r2 r14
const r5 4294967292
mul r4 r4 r5
const r5 0
add r2 r2 r4
L121:
# memcpy sdk/runtime/memory.c:14
bne r2 r5 L129
# memcpy sdk/runtime/memory.c:17
ret
L123:
# memcpy sdk/runtime/memory.c:13
add r3 r1 r5
loadw r7 r3 0
add r3 r0 r5
add r5 r5 r15
storew r3 r7 0
# memcpy sdk/runtime/memory.c:12
jump L114
L129:
# memcpy sdk/runtime/memory.c:15
sub r3 r5 r4
add r7 r1 r3
loadb r7 r7 0
add r3 r0 r3
const r14 1
add r5 r5 r14
storeb r3 r7 0
jump L121
L136:
# memmove sdk/runtime/memory.c:24
sub r8 r0 r1
# memmove sdk/runtime/memory.c:20
move r4 r0
move r3 r1
move r5 r2
move r7 r2
# memmove sdk/runtime/memory.c:26
const r6 3
# memmove sdk/runtime/memory.c:24
bltu r8 r2 L149
# memmove sdk/runtime/memory.c:25
jump L112
L144:
# memmove sdk/runtime/memory.c:27
sub r7 r7 r15
add r2 r3 r7
loadw r1 r2 0
add r2 r4 r7
storew r2 r1 0
L149:
# memmove sdk/runtime/memory.c:26
bltu r6 r7 L144
const r14 2
shr r2 r5 r14
const r1 4294967292
mul r2 r2 r1
add r2 r5 r2
# memmove sdk/runtime/memory.c:28
const r5 4294967295
L155:
const r14 1
sub r2 r2 r14
bne r2 r5 L159
# memmove sdk/runtime/memory.c:31
move r0 r4
ret
L159:
# memmove sdk/runtime/memory.c:29
add r1 r3 r2
loadb r0 r1 0
add r1 r4 r2
storeb r1 r0 0
jump L155
setup:
# (setup)
const r11 1024
const r15 4
ret
