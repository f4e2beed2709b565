# UUID 6f2a1c00-31d5-4b7e-9c41-0d5e8a772102
.flags 0
.pages 3
.entry create entry_create
.entry open entry_open
.entry invoke entry_invoke
.entry close entry_close
.entry destroy entry_destroy
L0:
# open_named storage_ta.c:14
move r5 r0
move r4 r1
# open_named storage_ta.c:15
loadw r0 r0 0
loadw r1 r5 4
storew r2 r12 0
sys 14
bne r0 r12 L16
shl r3 r1 r15
const r5 1080
add r5 r5 r3
const r3 196608
or r4 r4 r3
const r14 1
add r1 r1 r14
storew r5 r4 0
storew r5 r12 4
storew r2 r1 0
L16:
# open_named storage_ta.c:16
ret
L17:
# take sdk/runtime/entry.c:13
move r4 r0
move r5 r1
# take sdk/runtime/entry.c:14
const r2 0
const r7 4
L21:
# take sdk/runtime/entry.c:17
const r14 4
and r3 r4 r14
move r0 r2
# take sdk/runtime/entry.c:19
const r13 1
add r2 r2 r13
# take sdk/runtime/entry.c:17
beq r3 r12 L34
# take sdk/runtime/entry.c:18
sys 5
move r1 r0
# take sdk/runtime/entry.c:19
const r6 28
shl r3 r2 r6
L28:
# take sdk/runtime/entry.c:23
storew r5 r3 0
# take sdk/runtime/entry.c:24
storew r5 r1 4
# take sdk/runtime/entry.c:14
shr r4 r4 r14
const r13 8
add r5 r5 r13
bne r2 r7 L21
# take sdk/runtime/entry.c:26
ret
L34:
# take sdk/runtime/entry.c:20
and r3 r4 r15
# take sdk/runtime/entry.c:15
const r1 0
# take sdk/runtime/entry.c:20
beq r3 r12 L28
# take sdk/runtime/entry.c:21
sys 3
move r3 r0
jump L28
L40:
# give sdk/runtime/entry.c:30
move r5 r0
move r4 r1
# give sdk/runtime/entry.c:31
const r0 0
L43:
bne r5 r12 L45
# give sdk/runtime/entry.c:39
ret
L45:
# give sdk/runtime/entry.c:32
const r14 2
and r3 r5 r14
beq r3 r12 L52
# give sdk/runtime/entry.c:34
const r13 4
and r3 r5 r13
# give sdk/runtime/entry.c:35
loadw r2 r4 4
# give sdk/runtime/entry.c:34
beq r3 r12 L56
# give sdk/runtime/entry.c:35
move r1 r2
sys 6
L52:
# give sdk/runtime/entry.c:31
const r14 1
add r0 r0 r14
const r13 4
shr r5 r5 r13
const r6 8
add r4 r4 r6
jump L43
L56:
# give sdk/runtime/entry.c:37
loadw r1 r4 0
sys 4
jump L52
L59:
# length_of sdk/runtime/objects.c:146
const r3 1080
shl r6 r0 r15
add r3 r3 r6
loadw r3 r3 4
# length_of sdk/runtime/objects.c:145
move r4 r0
# length_of sdk/runtime/objects.c:146
const r2 16
# length_of sdk/runtime/objects.c:148
const r7 32768
const r5 1080
L67:
# length_of sdk/runtime/objects.c:149
add r1 r3 r7
move r0 r4
sys 17
bne r0 r12 L72
# length_of sdk/runtime/objects.c:150
move r3 r1
L72:
# length_of sdk/runtime/objects.c:148
const r14 1
sub r2 r2 r14
shr r7 r7 r14
bne r2 r12 L67
# length_of sdk/runtime/objects.c:151
add r5 r5 r6
move r0 r4
loadw r1 r5 4
sys 17
# length_of sdk/runtime/objects.c:153
move r0 r3
ret
L81:
# number_of sdk/runtime/objects.c:22
const r14 1
sub r0 r0 r14
# number_of sdk/runtime/objects.c:24
const r5 7
bltu r5 r0 L89
shl r4 r0 r15
const r5 1080
add r5 r5 r4
loadw r5 r5 0
bne r5 r12 L92
L89:
# number_of sdk/runtime/objects.c:25
const r0 4294901766
sys 1
L92:
# number_of sdk/runtime/objects.c:26
and r5 r5 r1
bne r5 r12 L97
# number_of sdk/runtime/objects.c:27
const r0 4294901763
sys 1
L97:
# number_of sdk/runtime/objects.c:29
ret
L98:
# drop storage_ta.c:79
const r14 16
sub r11 r11 r14
# drop storage_ta.c:81
move r2 r11
const r1 4
call L0
# drop storage_ta.c:83
bne r0 r12 L114
loadw r5 r11 0
beq r5 r12 L114
const r1 4
move r0 r5
call L81
shl r4 r0 r15
const r5 1080
add r5 r5 r4
storew r5 r12 0
sys 19
L114:
# drop storage_ta.c:84
const r14 16
add r11 r11 r14
ret
L117:
# TEE_CloseObject sdk/runtime/objects.c:116
beq r0 r12 L130
# TEE_CloseObject sdk/runtime/objects.c:118
const r1 196608
call L81
# TEE_CloseObject sdk/runtime/objects.c:119
shl r4 r0 r15
const r5 1080
add r5 r5 r4
storew r5 r12 0
# TEE_CloseObject sdk/runtime/objects.c:120
sys 18
# TEE_CloseObject sdk/runtime/objects.c:121
ret
L130:
ret
L131:
# put storage_ta.c:20
loadw r3 r0 4
loadw r6 r0 0
# put storage_ta.c:19
const r14 12
sub r11 r11 r14
# put storage_ta.c:21
loadw r7 r0 8
# put storage_ta.c:20
loadw r2 r0 12
# put storage_ta.c:19
storew r11 r9 4
# put storage_ta.c:20
move r0 r6
move r1 r3
sys 13
const r4 4294901763
bne r0 r4 L161
move r0 r6
move r1 r3
sys 14
move r9 r0
const r4 0
move r0 r1
bne r9 r12 L186
shl r1 r1 r15
const r5 1080
add r5 r5 r1
storew r5 r12 0
sys 19
move r9 r0
bne r0 r12 L186
move r0 r6
move r1 r3
sys 13
L161:
move r9 r0
move r5 r1
const r4 0
bne r0 r12 L186
const r4 1080
shl r6 r1 r15
add r4 r4 r6
const r1 197639
storew r4 r1 0
storew r4 r12 4
const r3 1080
beq r2 r12 L185
move r0 r5
move r1 r7
sys 16
const r2 4294901766
move r4 r0
beq r0 r2 L193
bne r0 r12 L195
move r0 r5
const r1 0
sys 17
L185:
const r13 1
add r4 r5 r13
L186:
move r0 r4
call L117
# put storage_ta.c:23
move r0 r9
loadw r9 r11 4
const r14 12
add r11 r11 r14
ret
L193:
# put storage_ta.c:20
const r4 4294914113
L195:
add r3 r3 r6
storew r3 r12 0
move r0 r5
sys 19
move r9 r4
const r4 0
jump L186
L202:
# TEE_GetObjectInfo1 sdk/runtime/objects.c:174
const r14 12
sub r11 r11 r14
storew r11 r9 4
move r9 r1
# TEE_GetObjectInfo1 sdk/runtime/objects.c:175
const r1 196608
# TEE_GetObjectInfo1 sdk/runtime/objects.c:174
storew r11 r10 0
# TEE_GetObjectInfo1 sdk/runtime/objects.c:175
call L81
# TEE_GetObjectInfo1 sdk/runtime/objects.c:177
const r5 2684354751
storew r9 r5 0
# TEE_GetObjectInfo1 sdk/runtime/objects.c:180
const r5 4294967295
storew r9 r5 12
# TEE_GetObjectInfo1 sdk/runtime/objects.c:178
storew r9 r12 4
# TEE_GetObjectInfo1 sdk/runtime/objects.c:179
storew r9 r12 8
# TEE_GetObjectInfo1 sdk/runtime/objects.c:175
move r10 r0
# TEE_GetObjectInfo1 sdk/runtime/objects.c:181
call L59
# TEE_GetObjectInfo1 sdk/runtime/objects.c:182
shl r10 r10 r15
const r5 1080
add r5 r5 r10
loadw r4 r5 4
# TEE_GetObjectInfo1 sdk/runtime/objects.c:183
loadw r5 r5 0
# TEE_GetObjectInfo1 sdk/runtime/objects.c:181
storew r9 r0 16
# TEE_GetObjectInfo1 sdk/runtime/objects.c:182
storew r9 r4 20
# TEE_GetObjectInfo1 sdk/runtime/objects.c:183
storew r9 r5 24
# TEE_GetObjectInfo1 sdk/runtime/objects.c:185
loadw r9 r11 4
loadw r10 r11 0
const r0 0
const r14 12
add r11 r11 r14
ret
L232:
# get storage_ta.c:43
loadw r5 r0 12
# get storage_ta.c:42
const r14 52
sub r11 r11 r14
# get storage_ta.c:46
const r13 8
add r2 r11 r13
const r1 1
# get storage_ta.c:42
storew r11 r9 44
storew r11 r10 40
move r9 r0
# get storage_ta.c:43
storew r11 r5 4
# get storage_ta.c:46
call L0
# get storage_ta.c:48
move r10 r0
bne r0 r12 L263
# get storage_ta.c:50
loadw r5 r11 8
const r14 12
add r1 r11 r14
move r0 r5
storew r11 r5 0
call L202
move r10 r0
# get storage_ta.c:51
bne r0 r12 L261
# get storage_ta.c:52
loadw r10 r11 28
# get storage_ta.c:53
loadw r5 r11 4
# get storage_ta.c:52
storew r9 r10 12
# get storage_ta.c:53
bltu r5 r10 L339
# read_all storage_ta.c:28
const r14 11
add r2 r10 r14
const r5 262144
const r13 4294967288
and r2 r2 r13
bgeu r5 r10 L269
L259:
# read_all storage_ta.c:33
const r10 4294901772
L261:
# get storage_ta.c:55
loadw r0 r11 8
call L117
L263:
# get storage_ta.c:57
loadw r9 r11 44
move r0 r10
loadw r10 r11 40
const r14 52
add r11 r11 r14
ret
L269:
# read_all storage_ta.c:28
const r1 12288
const r0 1144
bgeu r0 r1 L278
loadw r3 r12 1144
bne r3 r12 L278
sub r3 r1 r0
and r3 r3 r13
storew r12 r3 1144
L278:
bgeu r0 r1 L259
loadw r3 r0 0
const r14 1
and r5 r3 r14
bne r5 r12 L335
const r13 4294967294
and r3 r3 r13
add r3 r0 r3
L284:
loadw r5 r0 0
bgeu r3 r1 L289
loadw r3 r3 0
and r7 r3 r14
beq r7 r12 L330
L289:
bltu r5 r2 L335
storew r0 r2 0
sub r3 r5 r2
beq r5 r2 L295
add r5 r0 r2
storew r5 r3 0
L295:
loadw r5 r0 0
const r14 4
sub r2 r2 r14
const r1 0
const r13 1
or r5 r5 r13
storew r0 r5 0
add r0 r0 r14
call L508
# read_all storage_ta.c:32
beq r0 r12 L259
storew r11 r0 4
# read_all storage_ta.c:34
loadw r0 r11 0
const r1 1
call L81
loadw r3 r11 4
move r7 r0
move r2 r10
move r1 r3
sys 15
shl r7 r7 r15
const r4 1080
add r4 r4 r7
move r2 r1
loadw r1 r4 4
move r10 r0
add r1 r1 r2
storew r4 r1 4
# read_all storage_ta.c:35
bne r0 r12 L326
# read_all storage_ta.c:36
loadw r0 r9 8
move r1 r3
storew r11 r3 0
call L480
loadw r3 r11 0
L326:
# read_all storage_ta.c:37
loadw r4 r3 4294967292
const r14 4294967294
and r4 r4 r14
storew r3 r4 4294967292
jump L261
L330:
# read_all storage_ta.c:28
add r5 r5 r3
storew r0 r5 0
and r5 r5 r13
add r3 r0 r5
jump L284
L335:
loadw r5 r0 0
const r14 4294967294
and r5 r5 r14
add r0 r0 r5
jump L278
L339:
# get storage_ta.c:53
const r10 4294901776
jump L261
L342:
# append storage_ta.c:60
const r14 48
sub r11 r11 r14
# append storage_ta.c:63
const r13 4
add r2 r11 r13
const r1 2
# append storage_ta.c:60
storew r11 r9 40
storew r11 r10 36
move r10 r0
# append storage_ta.c:63
call L0
# append storage_ta.c:65
move r9 r0
bne r0 r12 L395
# append storage_ta.c:67
loadw r0 r11 4
const r1 196608
call L81
move r9 r0
call L59
move r1 r0
move r0 r9
sys 17
bne r0 r12 L401
const r5 1080
shl r9 r9 r15
# append storage_ta.c:69
loadw r2 r10 12
# append storage_ta.c:67
add r9 r5 r9
# append storage_ta.c:69
loadw r0 r11 4
# append storage_ta.c:67
storew r9 r1 4
# append storage_ta.c:69
loadw r9 r10 8
const r1 2
storew r11 r2 0
call L81
loadw r2 r11 0
move r4 r0
move r1 r9
sys 16
const r3 4294901766
move r9 r0
beq r0 r3 L404
bne r0 r12 L393
shl r4 r4 r15
const r5 1080
add r5 r5 r4
loadw r4 r5 4
# append storage_ta.c:71
loadw r0 r11 4
const r14 8
add r1 r11 r14
# append storage_ta.c:69
add r4 r4 r2
storew r5 r4 4
# append storage_ta.c:71
call L202
move r9 r0
# append storage_ta.c:72
bne r0 r12 L393
# append storage_ta.c:73
loadw r5 r11 24
storew r10 r5 16
L393:
# append storage_ta.c:74
loadw r0 r11 4
call L117
L395:
# append storage_ta.c:76
move r0 r9
loadw r9 r11 40
loadw r10 r11 36
const r14 48
add r11 r11 r14
ret
L401:
# append storage_ta.c:67
const r9 4294914063
jump L393
L404:
# append storage_ta.c:69
const r9 4294914113
jump L393
entry_create:
# (data)
const r13 5
storew r12 r13 1048
const r13 85
storew r12 r13 1024
const r13 101
storew r12 r13 1032
const r13 597
storew r12 r13 1040
const r13 1610613128
storew r12 r13 1052
const r13 1610613260
storew r12 r13 1028
const r13 1610613664
storew r12 r13 1036
const r13 1610614104
storew r12 r13 1044
# __ta_create sdk/runtime/entry.c:43
const r0 0
sys 0
entry_open:
# (setup)
call setup
# __ta_open sdk/runtime/entry.c:47
const r14 44
sub r11 r11 r14
# __ta_open sdk/runtime/entry.c:52
move r1 r11
# __ta_open sdk/runtime/entry.c:47
storew r11 r9 36
move r9 r0
# __ta_open sdk/runtime/entry.c:52
call L17
# __ta_open sdk/runtime/entry.c:54
move r1 r11
move r0 r9
call L40
# __ta_open sdk/runtime/entry.c:55
const r0 0
const r1 0
sys 0
entry_invoke:
# (setup)
call setup
# __ta_invoke sdk/runtime/entry.c:59
const r14 44
sub r11 r11 r14
storew r11 r10 32
move r10 r1
storew r11 r9 36
# __ta_invoke sdk/runtime/entry.c:63
move r1 r11
# __ta_invoke sdk/runtime/entry.c:59
move r9 r0
# __ta_invoke sdk/runtime/entry.c:63
move r0 r10
call L17
# TA_InvokeCommandEntryPoint storage_ta.c:121
bltu r15 r9 L446
# TA_InvokeCommandEntryPoint storage_ta.c:123
shl r9 r9 r15
const r5 1024
add r5 r5 r9
loadw r4 r5 0
bne r10 r4 L449
# TA_InvokeCommandEntryPoint storage_ta.c:125
loadw r5 r5 4
move r0 r11
move r13 r5
call dispatch
move r9 r0
L441:
# __ta_invoke sdk/runtime/entry.c:65
move r0 r10
move r1 r11
call L40
# __ta_invoke sdk/runtime/entry.c:66
move r0 r9
sys 0
L446:
# TA_InvokeCommandEntryPoint storage_ta.c:122
const r9 4294901770
jump L441
L449:
# TA_InvokeCommandEntryPoint storage_ta.c:124
const r9 4294901766
jump L441
entry_close:
# __ta_close sdk/runtime/entry.c:74
const r0 0
sys 0
entry_destroy:
# __ta_destroy sdk/runtime/entry.c:80
const r0 0
sys 0
L456:
# memcpy sdk/runtime/memory.c:12
const r5 0
const r4 3
L458:
sub r3 r2 r5
bltu r4 r3 L467
const r14 2
shr r4 r2 r14
const r5 4294967292
mul r4 r4 r5
const r5 0
add r2 r2 r4
L465:
# memcpy sdk/runtime/memory.c:14
bne r2 r5 L473
# memcpy sdk/runtime/memory.c:17
ret
L467:
# memcpy sdk/runtime/memory.c:13
add r3 r1 r5
loadw r7 r3 0
add r3 r0 r5
const r14 4
add r5 r5 r14
storew r3 r7 0
# memcpy sdk/runtime/memory.c:12
jump L458
L473:
# memcpy sdk/runtime/memory.c:15
sub r3 r5 r4
add r7 r1 r3
loadb r7 r7 0
add r3 r0 r3
const r14 1
add r5 r5 r14
storeb r3 r7 0
jump L465
L480:
# memmove sdk/runtime/memory.c:24
sub r8 r0 r1
# memmove sdk/runtime/memory.c:20
move r4 r0
move r3 r1
move r5 r2
move r7 r2
# memmove sdk/runtime/memory.c:26
const r6 3
# memmove sdk/runtime/memory.c:24
bltu r8 r2 L493
# memmove sdk/runtime/memory.c:25
jump L456
L488:
# memmove sdk/runtime/memory.c:27
const r14 4
sub r7 r7 r14
add r2 r3 r7
loadw r1 r2 0
add r2 r4 r7
storew r2 r1 0
L493:
# memmove sdk/runtime/memory.c:26
bltu r6 r7 L488
const r14 2
shr r2 r5 r14
const r1 4294967292
mul r2 r2 r1
add r2 r5 r2
# memmove sdk/runtime/memory.c:28
const r5 4294967295
L499:
const r14 1
sub r2 r2 r14
bne r2 r5 L503
# memmove sdk/runtime/memory.c:31
move r0 r4
ret
L503:
# memmove sdk/runtime/memory.c:29
add r1 r3 r2
loadb r0 r1 0
add r1 r4 r2
storeb r1 r0 0
jump L499
L508:
# memset sdk/runtime/memory.c:36
const r5 16843009
const r14 255
and r4 r1 r14
and r1 r1 r14
mul r1 r1 r5
# memset sdk/runtime/memory.c:38
add r3 r0 r2
# memset sdk/runtime/memory.c:35
move r5 r0
# memset sdk/runtime/memory.c:38
const r7 3
L516:
sub r6 r3 r5
bltu r7 r6 L522
const r14 4294967292
and r2 r2 r14
add r2 r2 r0
L520:
# memset sdk/runtime/memory.c:40
bne r2 r3 L525
# memset sdk/runtime/memory.c:43
ret
L522:
# memset sdk/runtime/memory.c:39
storew r5 r1 0
# memset sdk/runtime/memory.c:38
const r14 4
add r5 r5 r14
jump L516
L525:
# memset sdk/runtime/memory.c:41
const r14 1
add r2 r2 r14
storeb r2 r4 4294967295
jump L520
setup:
# (setup)
const r11 1024
const r15 3
ret
dispatch:
# (dispatch)
const r14 1610613128
beq r13 r14 L98
const r14 1610613260
beq r13 r14 L131
const r14 1610613664
beq r13 r14 L232
const r14 1610614104
beq r13 r14 L342
const r0 17
sys 1
