# UUID 6f2a1c00-31d5-4b7e-9c41-0d5e8a772104
.flags 0
.pages 1
.entry create entry_create
.entry open entry_open
.entry invoke entry_invoke
.entry close entry_close
.entry destroy entry_destroy
L0:
# take sdk/runtime/entry.c:13
move r4 r0
move r5 r1
# take sdk/runtime/entry.c:14
const r2 0
const r7 4
L4:
# take sdk/runtime/entry.c:17
and r3 r4 r15
move r0 r2
# take sdk/runtime/entry.c:19
const r14 1
add r2 r2 r14
# take sdk/runtime/entry.c:17
beq r3 r12 L17
# take sdk/runtime/entry.c:18
sys 5
move r1 r0
# take sdk/runtime/entry.c:19
const r13 28
shl r3 r2 r13
L11:
# take sdk/runtime/entry.c:23
storew r5 r3 0
# take sdk/runtime/entry.c:24
storew r5 r1 4
# take sdk/runtime/entry.c:14
shr r4 r4 r15
const r14 8
add r5 r5 r14
bne r2 r7 L4
# take sdk/runtime/entry.c:26
ret
L17:
# take sdk/runtime/entry.c:20
and r3 r4 r8
# take sdk/runtime/entry.c:15
const r1 0
# take sdk/runtime/entry.c:20
beq r3 r12 L11
# take sdk/runtime/entry.c:21
sys 3
move r3 r0
jump L11
L23:
# give sdk/runtime/entry.c:30
move r5 r0
move r4 r1
# give sdk/runtime/entry.c:31
const r0 0
L26:
bne r5 r12 L28
# give sdk/runtime/entry.c:39
ret
L28:
# give sdk/runtime/entry.c:32
const r14 2
and r3 r5 r14
beq r3 r12 L35
# give sdk/runtime/entry.c:34
and r3 r5 r15
# give sdk/runtime/entry.c:35
loadw r2 r4 4
# give sdk/runtime/entry.c:34
beq r3 r12 L39
# give sdk/runtime/entry.c:35
move r1 r2
sys 6
L35:
# give sdk/runtime/entry.c:31
const r14 1
add r0 r0 r14
shr r5 r5 r15
const r13 8
add r4 r4 r13
jump L26
L39:
# give sdk/runtime/entry.c:37
loadw r1 r4 0
sys 4
jump L35
L42:
# fill_in pin_ta.c:51
const r14 12
sub r11 r11 r14
storew r11 r10 0
# fill_in pin_ta.c:52
const r2 14
# fill_in pin_ta.c:51
move r10 r1
# fill_in pin_ta.c:52
const r1 0
# fill_in pin_ta.c:51
storew r11 r9 4
move r9 r0
# fill_in pin_ta.c:52
call L399
# fill_in pin_ta.c:53
storeb r9 r8 0
# fill_in pin_ta.c:54
loadw r2 r10 4
# fill_in pin_ta.c:55
const r14 2
add r0 r9 r14
# fill_in pin_ta.c:54
storeb r9 r2 1
# fill_in pin_ta.c:56
loadw r9 r11 4
# fill_in pin_ta.c:55
loadw r1 r10 0
# fill_in pin_ta.c:56
loadw r10 r11 0
const r13 12
add r11 r11 r13
# fill_in pin_ta.c:55
jump L375
L62:
# number_of sdk/runtime/objects.c:22
const r14 1
sub r0 r0 r14
# number_of sdk/runtime/objects.c:24
const r5 7
bltu r5 r0 L70
shl r4 r0 r8
const r5 1052
add r5 r5 r4
loadw r5 r5 0
bne r5 r12 L73
L70:
# number_of sdk/runtime/objects.c:25
const r0 4294901766
sys 1
L73:
# number_of sdk/runtime/objects.c:26
and r5 r5 r1
bne r5 r12 L78
# number_of sdk/runtime/objects.c:27
const r0 4294901763
sys 1
L78:
# number_of sdk/runtime/objects.c:29
ret
L79:
# save pin_ta.c:44
const r14 16
sub r11 r11 r14
storew r11 r1 0
# save pin_ta.c:45
const r1 196608
# save pin_ta.c:44
storew r11 r10 4
storew r11 r9 8
move r10 r0
# save pin_ta.c:45
call L62
move r4 r0
const r1 0
sys 17
bne r0 r12 L116
const r9 1052
shl r4 r4 r8
add r4 r9 r4
# save pin_ta.c:47
const r1 2
move r0 r10
# save pin_ta.c:45
storew r4 r12 4
# save pin_ta.c:47
call L62
loadw r1 r11 0
move r4 r0
const r2 14
sys 16
const r3 4294901766
beq r0 r3 L119
bne r0 r12 L111
shl r4 r4 r8
add r5 r9 r4
loadw r4 r5 4
add r4 r4 r2
storew r5 r4 4
L111:
# save pin_ta.c:48
loadw r9 r11 8
loadw r10 r11 4
const r14 16
add r11 r11 r14
ret
L116:
# save pin_ta.c:45
const r0 4294914063
jump L111
L119:
# save pin_ta.c:47
const r0 4294914113
jump L111
L122:
# TEE_CloseObject sdk/runtime/objects.c:116
beq r0 r12 L135
# TEE_CloseObject sdk/runtime/objects.c:118
const r1 196608
call L62
# TEE_CloseObject sdk/runtime/objects.c:119
shl r4 r0 r8
const r5 1052
add r5 r5 r4
storew r5 r12 0
# TEE_CloseObject sdk/runtime/objects.c:120
sys 18
# TEE_CloseObject sdk/runtime/objects.c:121
ret
L135:
ret
L136:
# open_state pin_ta.c:28
const r14 16
sub r11 r11 r14
storew r11 r10 4
storew r11 r9 8
move r10 r0
# open_state pin_ta.c:31
storew r0 r12 0
# open_state pin_ta.c:28
storew r11 r1 0
# open_state pin_ta.c:31
const r0 1024
const r1 4
sys 14
move r9 r0
bne r0 r12 L177
const r5 1052
const r13 1
add r0 r1 r13
shl r3 r1 r8
add r3 r5 r3
const r2 196611
storew r10 r0 0
# open_state pin_ta.c:35
const r1 1
# open_state pin_ta.c:31
storew r3 r2 0
storew r3 r12 4
# open_state pin_ta.c:35
call L62
loadw r1 r11 0
move r3 r0
const r2 14
sys 15
shl r3 r3 r8
const r5 1052
add r5 r5 r3
loadw r3 r5 4
move r9 r0
add r3 r3 r1
storew r5 r3 4
# open_state pin_ta.c:36
bne r0 r12 L175
const r5 14
beq r1 r5 L177
# open_state pin_ta.c:37
const r9 4027580417
L175:
# open_state pin_ta.c:39
loadw r0 r10 0
call L122
L177:
# open_state pin_ta.c:41
move r0 r9
loadw r9 r11 8
loadw r10 r11 4
const r14 16
add r11 r11 r14
ret
L183:
# check pin_ta.c:93
const r14 56
sub r11 r11 r14
storew r11 r9 48
storew r11 r10 44
move r10 r0
move r9 r1
# check pin_ta.c:98
beq r1 r12 L194
# is_pin pin_ta.c:24
loadw r5 r1 4
# check pin_ta.c:98
const r4 8
# is_pin pin_ta.c:24
sub r5 r5 r15
# check pin_ta.c:98
bltu r4 r5 L259
L194:
# check pin_ta.c:100
const r13 12
add r1 r11 r13
const r3 8
add r0 r11 r3
call L136
move r5 r0
# check pin_ta.c:101
bne r0 r12 L239
# check pin_ta.c:103
loadw r5 r11 8
storew r11 r5 0
# check_opened pin_ta.c:78
loadb r5 r11 12
beq r5 r12 L256
# check_opened pin_ta.c:81
loadw r0 r11 0
# check_opened pin_ta.c:80
const r14 1
sub r5 r5 r14
# check_opened pin_ta.c:81
const r13 12
add r1 r11 r13
# check_opened pin_ta.c:80
storeb r11 r5 12
# check_opened pin_ta.c:81
call L79
move r5 r0
# check_opened pin_ta.c:82
bne r0 r12 L235
# is_pin pin_ta.c:24
loadw r5 r10 4
# is_right pin_ta.c:64
const r4 8
# is_pin pin_ta.c:24
sub r5 r5 r15
# is_right pin_ta.c:64
bltu r4 r5 L233
# is_right pin_ta.c:66
move r1 r10
const r14 28
add r0 r11 r14
call L42
# is_right pin_ta.c:67
loadb r4 r11 13
loadb r5 r11 29
# is_right pin_ta.c:68
const r2 14
# is_right pin_ta.c:67
xor r5 r5 r4
const r4 2
L222:
# is_right pin_ta.c:69
const r14 28
add r3 r11 r14
const r13 12
add r1 r11 r13
add r3 r3 r4
add r1 r1 r4
loadb r3 r3 0
loadb r1 r1 0
# is_right pin_ta.c:68
const r6 1
add r4 r4 r6
# is_right pin_ta.c:69
xor r3 r3 r1
or r5 r5 r3
# is_right pin_ta.c:68
bne r4 r2 L222
# check_opened pin_ta.c:84
beq r5 r12 L245
L233:
# check_opened pin_ta.c:85
const r5 4294901761
L235:
# check pin_ta.c:104
loadw r0 r11 0
storew r11 r5 4
call L122
# check pin_ta.c:105
loadw r5 r11 4
L239:
# check pin_ta.c:106
loadw r9 r11 48
loadw r10 r11 44
move r0 r5
const r14 56
add r11 r11 r14
ret
L245:
# check_opened pin_ta.c:86
beq r9 r12 L249
# check_opened pin_ta.c:87
move r1 r9
add r0 r11 r13
call L42
L249:
# check_opened pin_ta.c:89
loadw r0 r11 0
const r14 12
add r1 r11 r14
# check_opened pin_ta.c:88
storeb r11 r8 12
# check_opened pin_ta.c:89
call L79
move r5 r0
jump L235
L256:
# check_opened pin_ta.c:79
const r5 4294901773
jump L235
L259:
# check pin_ta.c:99
const r5 4294901766
jump L239
entry_create:
# (data)
const r13 7235952
storew r12 r13 1024
# __ta_create sdk/runtime/entry.c:43
const r0 0
sys 0
entry_open:
# (setup)
call setup
# __ta_open sdk/runtime/entry.c:47
const r14 44
sub r11 r11 r14
# __ta_open sdk/runtime/entry.c:52
move r1 r11
# __ta_open sdk/runtime/entry.c:47
storew r11 r9 36
move r9 r0
# __ta_open sdk/runtime/entry.c:52
call L0
# __ta_open sdk/runtime/entry.c:54
move r1 r11
move r0 r9
call L23
# __ta_open sdk/runtime/entry.c:55
const r0 0
const r1 0
sys 0
entry_invoke:
# (setup)
call setup
# __ta_invoke sdk/runtime/entry.c:59
const r14 64
sub r11 r11 r14
storew r11 r10 52
move r10 r1
storew r11 r9 56
# __ta_invoke sdk/runtime/entry.c:63
const r13 20
add r1 r11 r13
# __ta_invoke sdk/runtime/entry.c:59
move r9 r0
# __ta_invoke sdk/runtime/entry.c:63
move r0 r10
call L0
# types_of pin_ta.c:134
bne r9 r8 L292
# TA_InvokeCommandEntryPoint pin_ta.c:166
const r5 2
beq r10 r5 L362
L289:
# TA_InvokeCommandEntryPoint pin_ta.c:167
const r9 4294901766
jump L309
L292:
# types_of pin_ta.c:136
const r5 2
bne r9 r5 L301
# TA_InvokeCommandEntryPoint pin_ta.c:166
const r5 85
# TA_InvokeCommandEntryPoint pin_ta.c:174
const r14 28
add r1 r11 r14
# TA_InvokeCommandEntryPoint pin_ta.c:166
bne r10 r5 L289
L297:
# TA_InvokeCommandEntryPoint pin_ta.c:174
const r14 20
add r0 r11 r14
call L183
move r9 r0
jump L309
L301:
# TA_InvokeCommandEntryPoint pin_ta.c:166
const r5 5
bne r10 r5 L289
# TA_InvokeCommandEntryPoint pin_ta.c:168
beq r9 r12 L314
const r5 1
# TA_InvokeCommandEntryPoint pin_ta.c:172
const r1 0
# TA_InvokeCommandEntryPoint pin_ta.c:168
beq r9 r5 L297
const r9 4294901770
L309:
# __ta_invoke sdk/runtime/entry.c:65
move r0 r10
const r14 20
add r1 r11 r14
call L23
# __ta_invoke sdk/runtime/entry.c:66
move r0 r9
sys 0
L314:
# is_pin pin_ta.c:24
loadw r5 r11 24
# set pin_ta.c:112
const r4 8
# is_pin pin_ta.c:24
sub r5 r5 r15
# set pin_ta.c:112
bltu r4 r5 L289
# set pin_ta.c:114
const r14 20
add r1 r11 r14
add r0 r11 r15
call L42
# set pin_ta.c:115
const r0 1024
const r1 4
sys 13
const r2 4294901763
move r9 r0
move r5 r1
const r4 0
beq r0 r2 L351
bne r0 r12 L351
shl r7 r1 r8
const r2 1052
add r2 r2 r7
const r1 196610
storew r2 r1 0
storew r2 r12 4
move r0 r5
add r1 r11 r15
const r2 14
sys 16
const r3 4294901766
move r9 r0
const r4 1052
beq r0 r3 L354
bne r0 r12 L356
const r14 1
add r4 r5 r14
move r0 r5
const r1 0
sys 17
L351:
move r0 r4
L352:
# tries_left pin_ta.c:128
call L122
# TA_InvokeCommandEntryPoint pin_ta.c:176
jump L309
L354:
# set pin_ta.c:115
const r9 4294914113
L356:
add r4 r4 r7
storew r4 r12 0
move r0 r5
sys 19
const r4 0
jump L351
L362:
# tries_left pin_ta.c:123
add r1 r11 r15
move r0 r11
call L136
move r9 r0
# tries_left pin_ta.c:125
bne r0 r12 L309
# tries_left pin_ta.c:127
loadb r5 r11 4
# tries_left pin_ta.c:128
loadw r0 r11 0
# tries_left pin_ta.c:127
storew r11 r5 20
# tries_left pin_ta.c:128
jump L352
entry_close:
# __ta_close sdk/runtime/entry.c:74
const r0 0
sys 0
entry_destroy:
# __ta_destroy sdk/runtime/entry.c:80
const r0 0
sys 0
L375:
# memcpy sdk/runtime/memory.c:12
const r5 0
const r4 3
L377:
sub r3 r2 r5
bltu r4 r3 L386
shr r4 r2 r14
const r5 4294967292
mul r4 r4 r5
const r5 0
add r2 r2 r4
L384:
# memcpy sdk/runtime/memory.c:14
bne r2 r5 L392
# memcpy sdk/runtime/memory.c:17
ret
L386:
# memcpy sdk/runtime/memory.c:13
add r3 r1 r5
loadw r7 r3 0
add r3 r0 r5
add r5 r5 r15
storew r3 r7 0
# memcpy sdk/runtime/memory.c:12
jump L377
L392:
# memcpy sdk/runtime/memory.c:15
sub r3 r5 r4
add r7 r1 r3
loadb r7 r7 0
add r3 r0 r3
const r14 1
add r5 r5 r14
storeb r3 r7 0
jump L384
L399:
# memset sdk/runtime/memory.c:36
const r5 16843009
const r14 255
and r4 r1 r14
and r1 r1 r14
mul r1 r1 r5
# memset sdk/runtime/memory.c:38
add r3 r0 r2
# memset sdk/runtime/memory.c:35
move r5 r0
# memset sdk/runtime/memory.c:38
const r7 3
L407:
sub r6 r3 r5
bltu r7 r6 L413
const r14 4294967292
and r2 r2 r14
add r2 r2 r0
L411:
# memset sdk/runtime/memory.c:40
bne r2 r3 L416
# memset sdk/runtime/memory.c:43
ret
L413:
# memset sdk/runtime/memory.c:39
storew r5 r1 0
# memset sdk/runtime/memory.c:38
add r5 r5 r15
jump L407
L416:
# memset sdk/runtime/memory.c:41
const r14 1
add r2 r2 r14
storeb r2 r4 4294967295
jump L411
setup:
# (setup)
const r11 1024
const r15 4
const r8 3
ret
