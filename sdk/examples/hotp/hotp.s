# UUID 6f2a1c00-31d5-4b7e-9c41-0d5e8a772103
.flags 0
.pages 1
.entry create entry_create
.entry open entry_open
.entry invoke entry_invoke
.entry close entry_close
.entry destroy entry_destroy
L0:
# sha1_add sha1.c:76
const r14 120
sub r11 r11 r14
add r5 r1 r2
storew r11 r5 36
const r13 88
add r5 r0 r13
storew r11 r5 40
# add_block sha1.c:52
const r5 1052
# sha1_add sha1.c:76
storew r11 r9 116
storew r11 r10 112
storew r11 r1 4
# add_block sha1.c:52
storew r11 r5 44
L10:
# sha1_add sha1.c:78
loadw r5 r11 4
add r5 r5 r15
storew r11 r5 4
loadw r5 r0 20
loadw r3 r11 4
add r4 r5 r15
storew r0 r4 20
loadb r3 r3 4294967295
const r10 63
and r5 r5 r10
add r5 r0 r5
storeb r5 r3 24
# sha1_add sha1.c:79
and r4 r4 r10
bne r4 r12 L150
# add_block sha1.c:46
loadw r5 r0 0
const r14 24
add r4 r0 r14
const r13 48
add r3 r11 r13
storew r11 r5 8
loadw r5 r0 4
storew r11 r5 12
loadw r5 r0 8
storew r11 r5 16
loadw r5 r0 12
storew r11 r5 20
loadw r5 r0 16
storew r11 r5 24
L35:
# big_endian sha1.c:17
loadb r2 r4 0
loadb r5 r4 1
# add_block sha1.c:48
const r10 4
add r4 r4 r10
# big_endian sha1.c:17
shl r2 r2 r14
const r13 16
shl r5 r5 r13
or r5 r2 r5
loadb r2 r4 4294967295
# add_block sha1.c:48
add r3 r3 r10
# big_endian sha1.c:17
or r5 r5 r2
loadb r2 r4 4294967294
const r6 8
shl r2 r2 r6
or r5 r5 r2
# add_block sha1.c:49
storew r3 r5 4294967292
# add_block sha1.c:48
loadw r5 r11 40
bne r5 r4 L35
# add_block sha1.c:46
loadw r5 r11 24
loadw r3 r11 20
loadw r2 r11 16
loadw r8 r11 12
loadw r9 r11 8
storew r11 r5 28
# add_block sha1.c:50
const r4 0
L57:
# add_block sha1.c:51
const r5 20
move r13 r4
move r14 r5
call helper_div
move r7 r13
# rotated sha1.c:12
const r10 27
shr r1 r9 r10
const r14 5
shl r5 r9 r14
or r5 r1 r5
storew r11 r5 32
# mixed sha1.c:23
beq r7 r12 L72
const r5 2
beq r7 r5 L76
# mixed sha1.c:29
xor r5 r8 r2
jump L74
L68:
# add_block sha1.c:29
move r3 r2
# add_block sha1.c:52
move r9 r7
# rotated sha1.c:12
move r2 r5
jump L57
L72:
# mixed sha1.c:25
xor r5 r2 r3
and r5 r5 r8
L74:
# mixed sha1.c:29
xor r5 r5 r3
jump L80
L76:
# mixed sha1.c:27
or r5 r2 r3
and r5 r5 r8
and r1 r2 r3
or r5 r5 r1
L80:
# scheduled sha1.c:36
const r13 15
and r1 r4 r13
const r6 2
shl r1 r1 r6
# mixed sha1.c:29
storew r11 r5 0
# scheduled sha1.c:38
const r6 15
# scheduled sha1.c:36
const r5 44
add r5 r1 r5
const r1 4
add r1 r11 r1
add r1 r5 r1
# scheduled sha1.c:38
const r5 2147483663
const r14 2147483648
xor r13 r4 r14
bgeu r5 r13 L115
# scheduled sha1.c:39
const r13 13
add r10 r4 r13
and r10 r10 r6
const r14 2
shl r10 r10 r14
const r14 48
add r5 r11 r14
const r14 64
add r6 r10 r14
add r10 r6 r5
const r6 8
add r6 r4 r6
const r14 15
and r6 r6 r14
const r14 2
shl r6 r6 r14
const r14 64
add r6 r6 r14
add r6 r6 r5
loadw r6 r6 4294967232
loadw r10 r10 4294967232
xor r10 r10 r6
loadw r6 r1 0
xor r10 r10 r6
const r6 2
add r6 r4 r6
const r14 15
and r6 r6 r14
const r14 2
shl r6 r6 r14
const r14 64
add r6 r6 r14
add r6 r6 r5
loadw r6 r6 4294967232
xor r6 r10 r6
# rotated sha1.c:12
shl r10 r6 r15
const r5 31
shr r6 r6 r5
or r10 r10 r6
# scheduled sha1.c:39
storew r1 r10 0
L115:
# add_block sha1.c:52
loadw r6 r11 44
const r14 2
shl r7 r7 r14
loadw r1 r1 0
add r7 r6 r7
loadw r7 r7 0
loadw r6 r11 32
loadw r5 r11 0
# add_block sha1.c:50
add r4 r4 r15
# add_block sha1.c:52
add r7 r6 r7
add r7 r7 r1
add r7 r7 r5
loadw r5 r11 28
# rotated sha1.c:12
shr r1 r8 r14
storew r11 r3 28
# add_block sha1.c:52
add r7 r7 r5
# rotated sha1.c:12
const r13 30
shl r5 r8 r13
or r5 r5 r1
# add_block sha1.c:50
const r1 80
move r8 r9
bne r4 r1 L68
# add_block sha1.c:60
loadw r4 r11 8
add r4 r4 r7
storew r0 r4 0
# add_block sha1.c:61
loadw r4 r11 12
add r4 r4 r9
storew r0 r4 4
# add_block sha1.c:62
loadw r4 r11 16
add r5 r4 r5
storew r0 r5 8
# add_block sha1.c:63
loadw r5 r11 20
add r5 r5 r2
storew r0 r5 12
# add_block sha1.c:64
loadw r5 r11 24
add r5 r5 r3
storew r0 r5 16
L150:
# sha1_add sha1.c:77
loadw r5 r11 4
loadw r4 r11 36
bne r5 r4 L10
# sha1_add sha1.c:82
loadw r9 r11 116
loadw r10 r11 112
const r14 120
add r11 r11 r14
ret
L157:
# sha1_end sha1.c:85
const r14 24
sub r11 r11 r14
storew r11 r9 16
# sha1_end sha1.c:86
loadw r9 r0 20
# sha1_end sha1.c:87
const r5 4294967168
# sha1_end sha1.c:85
storew r11 r10 12
storew r11 r1 0
# sha1_end sha1.c:86
const r13 3
shl r9 r9 r13
# sha1_end sha1.c:87
storeb r11 r5 11
L166:
# sha1_end sha1.c:90
const r2 1
const r14 11
add r1 r11 r14
storew r11 r0 4
call L0
# sha1_end sha1.c:92
loadw r0 r11 4
# sha1_end sha1.c:91
storeb r11 r12 11
# sha1_end sha1.c:92
const r4 56
loadw r5 r0 20
const r14 63
and r5 r5 r14
bne r5 r4 L166
# sha1_end sha1.c:93
const r5 0
L177:
# sha1_end sha1.c:94
add r10 r5 r15
const r14 2147483651
const r13 2147483648
xor r3 r5 r13
bltu r14 r3 L188
# sha1_end sha1.c:95
const r2 1
const r3 11
add r1 r11 r3
storew r11 r0 4
# sha1_end sha1.c:94
storeb r11 r12 11
# sha1_end sha1.c:95
call L0
# sha1_end sha1.c:93
loadw r0 r11 4
move r5 r10
jump L177
L188:
# sha1_end sha1.c:94
const r4 4294967288
mul r5 r5 r4
# sha1_end sha1.c:95
const r2 1
const r3 11
add r1 r11 r3
storew r11 r0 4
# sha1_end sha1.c:94
const r6 56
add r5 r5 r6
shr r5 r9 r5
storeb r11 r5 11
# sha1_end sha1.c:95
call L0
# sha1_end sha1.c:93
const r4 8
loadw r0 r11 4
move r5 r10
bne r10 r4 L177
# sha1_end sha1.c:97
const r5 0
const r2 20
L203:
# sha1_end sha1.c:98
loadw r4 r11 0
const r14 4294967292
and r3 r5 r14
add r3 r0 r3
add r1 r4 r5
loadw r3 r3 0
const r13 4294967295
xor r4 r5 r13
const r6 3
and r4 r4 r6
shl r4 r4 r6
shr r4 r3 r4
storeb r1 r4 0
# sha1_end sha1.c:97
add r5 r5 r15
bne r5 r2 L203
# sha1_end sha1.c:99
loadw r9 r11 16
loadw r10 r11 12
const r4 24
add r11 r11 r4
ret
L220:
# take sdk/runtime/entry.c:13
move r4 r0
move r5 r1
# take sdk/runtime/entry.c:14
const r2 0
const r7 4
L224:
# take sdk/runtime/entry.c:17
const r14 4
and r3 r4 r14
move r0 r2
# take sdk/runtime/entry.c:19
add r2 r2 r15
# take sdk/runtime/entry.c:17
beq r3 r12 L237
# take sdk/runtime/entry.c:18
sys 5
move r1 r0
# take sdk/runtime/entry.c:19
const r13 28
shl r3 r2 r13
L231:
# take sdk/runtime/entry.c:23
storew r5 r3 0
# take sdk/runtime/entry.c:24
storew r5 r1 4
# take sdk/runtime/entry.c:14
shr r4 r4 r14
const r13 8
add r5 r5 r13
bne r2 r7 L224
# take sdk/runtime/entry.c:26
ret
L237:
# take sdk/runtime/entry.c:20
const r13 3
and r3 r4 r13
# take sdk/runtime/entry.c:15
const r1 0
# take sdk/runtime/entry.c:20
beq r3 r12 L231
# take sdk/runtime/entry.c:21
sys 3
move r3 r0
jump L231
L243:
# give sdk/runtime/entry.c:30
move r5 r0
move r4 r1
# give sdk/runtime/entry.c:31
const r0 0
L246:
bne r5 r12 L248
# give sdk/runtime/entry.c:39
ret
L248:
# give sdk/runtime/entry.c:32
const r14 2
and r3 r5 r14
beq r3 r12 L255
# give sdk/runtime/entry.c:34
const r13 4
and r3 r5 r13
# give sdk/runtime/entry.c:35
loadw r2 r4 4
# give sdk/runtime/entry.c:34
beq r3 r12 L259
# give sdk/runtime/entry.c:35
move r1 r2
sys 6
L255:
# give sdk/runtime/entry.c:31
add r0 r0 r15
const r14 4
shr r5 r5 r14
const r13 8
add r4 r4 r13
jump L246
L259:
# give sdk/runtime/entry.c:37
loadw r1 r4 0
sys 4
jump L255
L262:
# begin_with_key sha1.c:103
const r14 28
sub r11 r11 r14
storew r11 r9 20
move r9 r1
storew r11 r10 16
# sha1_begin sha1.c:71
const r1 1032
# begin_with_key sha1.c:103
move r10 r2
# sha1_begin sha1.c:71
const r2 20
# begin_with_key sha1.c:103
storew r11 r0 0
storew r11 r3 4
# sha1_begin sha1.c:71
call L583
# sha1_begin sha1.c:72
loadw r5 r11 0
storew r5 r12 20
# begin_with_key sha1.c:105
const r5 0
L276:
# begin_with_key sha1.c:106
const r4 0
bgeu r5 r10 L280
add r4 r9 r5
loadb r4 r4 0
const r14 128
xor r4 r4 r14
sub r4 r4 r14
L280:
storew r11 r5 8
loadw r5 r11 4
# begin_with_key sha1.c:108
loadw r0 r11 0
const r2 1
# begin_with_key sha1.c:106
xor r4 r5 r4
# begin_with_key sha1.c:108
const r14 15
add r1 r11 r14
# begin_with_key sha1.c:106
storeb r11 r4 15
# begin_with_key sha1.c:108
call L0
# begin_with_key sha1.c:105
loadw r5 r11 8
const r4 64
add r5 r5 r15
bne r5 r4 L276
# begin_with_key sha1.c:110
loadw r9 r11 20
loadw r10 r11 16
const r14 28
add r11 r11 r14
ret
L297:
# number_of sdk/runtime/objects.c:22
sub r0 r0 r15
# number_of sdk/runtime/objects.c:24
const r5 7
bltu r5 r0 L305
const r14 3
shl r4 r0 r14
const r5 1092
add r5 r5 r4
loadw r5 r5 0
bne r5 r12 L308
L305:
# number_of sdk/runtime/objects.c:25
const r0 4294901766
sys 1
L308:
# number_of sdk/runtime/objects.c:26
and r5 r5 r1
bne r5 r12 L313
# number_of sdk/runtime/objects.c:27
const r0 4294901763
sys 1
L313:
# number_of sdk/runtime/objects.c:29
ret
L314:
# TEE_CloseObject sdk/runtime/objects.c:116
beq r0 r12 L327
# TEE_CloseObject sdk/runtime/objects.c:118
const r1 196608
call L297
# TEE_CloseObject sdk/runtime/objects.c:119
const r14 3
shl r4 r0 r14
const r5 1092
add r5 r5 r4
storew r5 r12 0
# TEE_CloseObject sdk/runtime/objects.c:120
sys 18
# TEE_CloseObject sdk/runtime/objects.c:121
ret
L327:
ret
entry_create:
# (data)
const r13 271733878
storew r12 r13 1044
const r13 1518500249
storew r12 r13 1052
const r13 1732584193
storew r12 r13 1032
const r13 1859775393
storew r12 r13 1056
const r13 1886678888
storew r12 r13 1024
const r13 2400959708
storew r12 r13 1060
const r13 2562383102
storew r12 r13 1040
const r13 3285377520
storew r12 r13 1048
const r13 3395469782
storew r12 r13 1064
const r13 4023233417
storew r12 r13 1036
# __ta_create sdk/runtime/entry.c:43
const r0 0
sys 0
entry_open:
# (setup)
call setup
# __ta_open sdk/runtime/entry.c:47
const r14 44
sub r11 r11 r14
# __ta_open sdk/runtime/entry.c:52
move r1 r11
# __ta_open sdk/runtime/entry.c:47
storew r11 r9 36
move r9 r0
# __ta_open sdk/runtime/entry.c:52
call L220
# __ta_open sdk/runtime/entry.c:54
move r1 r11
move r0 r9
call L243
# __ta_open sdk/runtime/entry.c:55
const r0 0
const r1 0
sys 0
entry_invoke:
# (setup)
call setup
# __ta_invoke sdk/runtime/entry.c:59
const r14 240
sub r11 r11 r14
storew r11 r1 4
storew r11 r9 232
move r9 r0
# __ta_invoke sdk/runtime/entry.c:63
loadw r0 r11 4
const r13 36
add r1 r11 r13
# __ta_invoke sdk/runtime/entry.c:59
storew r11 r10 228
# __ta_invoke sdk/runtime/entry.c:63
call L220
# TA_InvokeCommandEntryPoint hotp_ta.c:116
beq r9 r12 L361
beq r9 r15 L438
const r9 4294901770
L356:
# __ta_invoke sdk/runtime/entry.c:65
loadw r0 r11 4
const r14 36
add r1 r11 r14
call L243
# __ta_invoke sdk/runtime/entry.c:66
move r0 r9
sys 0
L361:
# set_key hotp_ta.c:63
const r2 72
const r1 0
const r14 140
add r0 r11 r14
call L607
loadw r2 r11 40
# set_key hotp_ta.c:65
loadw r5 r11 4
const r4 5
# set_key hotp_ta.c:63
storew r11 r2 144
# set_key hotp_ta.c:65
const r14 15
and r5 r5 r14
bne r5 r4 L576
# set_key hotp_ta.c:67
const r13 16
sub r5 r2 r13
const r4 48
bltu r4 r5 L576
# set_key hotp_ta.c:69
loadw r1 r11 36
const r3 148
add r0 r11 r3
call L583
# save hotp_ta.c:23
const r0 1024
const r1 5
sys 13
const r3 4294901763
move r9 r0
move r4 r1
bne r0 r3 L404
const r0 1024
const r1 5
sys 14
move r9 r0
const r3 0
move r0 r1
bne r9 r12 L427
const r14 3
shl r4 r1 r14
const r5 1092
add r5 r5 r4
storew r5 r12 0
sys 19
move r9 r0
bne r0 r12 L427
const r0 1024
const r1 5
sys 13
move r9 r0
move r4 r1
L404:
const r3 0
bne r9 r12 L427
const r5 1092
const r14 3
shl r7 r4 r14
add r5 r5 r7
const r2 197634
storew r5 r2 0
storew r5 r12 4
move r0 r4
const r13 140
add r1 r11 r13
const r2 72
sys 16
const r2 4294901766
move r9 r0
const r3 1092
beq r0 r2 L430
bne r0 r12 L432
add r3 r4 r15
move r0 r4
const r1 0
sys 17
L427:
move r0 r3
L428:
# load hotp_ta.c:50
call L314
# next_password hotp_ta.c:82
jump L356
L430:
# save hotp_ta.c:23
const r9 4294914113
L432:
add r3 r3 r7
storew r3 r12 0
move r0 r4
sys 19
const r3 0
jump L427
L438:
# next_password hotp_ta.c:79
loadw r5 r11 4
# next_password hotp_ta.c:76
storew r11 r12 8
storew r11 r12 12
# next_password hotp_ta.c:79
const r14 15
and r5 r5 r14
const r4 2
bne r5 r4 L576
# load hotp_ta.c:45
const r0 1024
const r1 5
sys 14
move r9 r0
bne r0 r12 L356
const r10 1092
const r13 3
shl r5 r1 r13
add r5 r10 r5
const r4 196611
storew r5 r4 0
storew r5 r12 4
add r5 r1 r15
# count_up hotp_ta.c:29
move r0 r5
const r1 1
# load hotp_ta.c:45
storew r11 r5 0
# count_up hotp_ta.c:29
call L297
move r4 r0
const r14 68
add r1 r11 r14
const r2 72
sys 15
move r9 r0
const r13 3
shl r0 r4 r13
add r0 r10 r0
loadw r4 r0 4
add r4 r4 r1
storew r0 r4 4
# count_up hotp_ta.c:31
bne r9 r12 L500
# count_up hotp_ta.c:33
const r5 72
bne r1 r5 L571
# count_up hotp_ta.c:35
loadw r5 r11 68
# count_up hotp_ta.c:36
loadw r0 r11 0
const r1 196608
# count_up hotp_ta.c:35
add r5 r5 r15
storew r11 r5 140
# count_up hotp_ta.c:36
call L297
move r5 r0
const r1 0
sys 17
bne r0 r12 L502
# count_up hotp_ta.c:37
loadw r0 r11 0
# count_up hotp_ta.c:36
const r14 3
shl r5 r5 r14
add r5 r10 r5
# count_up hotp_ta.c:37
const r1 2
# count_up hotp_ta.c:36
storew r5 r12 4
# count_up hotp_ta.c:37
call L297
move r4 r0
const r14 140
add r1 r11 r14
const r2 4
sys 16
const r3 4294901766
move r9 r0
bne r0 r3 L507
const r9 4294914113
L500:
# load hotp_ta.c:50
loadw r0 r11 0
jump L428
L502:
loadw r0 r11 0
call L314
# count_up hotp_ta.c:36
const r9 4294914063
jump L356
L507:
# count_up hotp_ta.c:37
bne r0 r12 L500
const r13 3
shl r4 r4 r13
add r4 r10 r4
loadw r3 r4 4
# load hotp_ta.c:50
loadw r0 r11 0
# count_up hotp_ta.c:37
add r3 r3 r2
storew r4 r3 4
# load hotp_ta.c:50
call L314
# next_password hotp_ta.c:85
loadw r4 r11 68
const r14 65535
and r4 r4 r14
# next_password hotp_ta.c:86
loadw r10 r11 72
# hmac_sha1 sha1.c:116
const r13 76
add r1 r11 r13
const r5 8
shl r3 r4 r5
shr r4 r4 r5
or r3 r3 r4
# next_password hotp_ta.c:85
loadw r4 r11 68
storeb r11 r3 14
shr r6 r3 r5
storeb r11 r6 15
# hmac_sha1 sha1.c:116
const r6 140
add r0 r11 r6
# next_password hotp_ta.c:85
const r7 24
shr r2 r4 r7
# hmac_sha1 sha1.c:116
const r3 54
# next_password hotp_ta.c:85
const r8 16
shr r4 r4 r8
storeb r11 r2 12
# hmac_sha1 sha1.c:116
move r2 r10
# next_password hotp_ta.c:85
storeb r11 r4 13
# hmac_sha1 sha1.c:116
call L262
# hmac_sha1 sha1.c:117
const r2 8
add r1 r11 r2
const r14 140
add r0 r11 r14
call L0
# hmac_sha1 sha1.c:118
const r14 16
add r1 r11 r14
const r13 140
add r0 r11 r13
call L157
# hmac_sha1 sha1.c:119
const r3 92
move r2 r10
const r14 76
add r1 r11 r14
const r13 140
add r0 r11 r13
call L262
# hmac_sha1 sha1.c:120
const r2 20
const r14 16
add r1 r11 r14
const r13 140
add r0 r11 r13
call L0
# hmac_sha1 sha1.c:121
const r14 16
add r1 r11 r14
const r13 140
add r0 r11 r13
call L157
# truncated hotp_ta.c:56
loadb r4 r11 35
const r14 16
add r5 r11 r14
const r13 15
and r4 r4 r13
add r3 r5 r4
# truncated hotp_ta.c:58
loadb r4 r3 1
loadb r2 r3 2
shl r4 r4 r14
const r0 8
shl r2 r2 r0
or r4 r4 r2
loadb r2 r3 3
loadb r3 r3 0
or r4 r4 r2
const r1 24
shl r3 r3 r1
const r2 2130706432
and r3 r3 r2
or r4 r4 r3
const r3 1000000
rem r4 r4 r3
# next_password hotp_ta.c:87
storew r11 r4 36
# next_password hotp_ta.c:88
jump L356
L571:
# load hotp_ta.c:50
loadw r0 r11 0
call L314
# count_up hotp_ta.c:34
const r9 4027580417
jump L356
L576:
# next_password hotp_ta.c:80
const r9 4294901766
# TA_InvokeCommandEntryPoint hotp_ta.c:120
jump L356
entry_close:
# __ta_close sdk/runtime/entry.c:74
const r0 0
sys 0
entry_destroy:
# __ta_destroy sdk/runtime/entry.c:80
const r0 0
sys 0
L583:
# memcpy sdk/runtime/memory.c:12
const r5 0
const r4 3
L585:
sub r3 r2 r5
bltu r4 r3 L594
const r14 2
shr r4 r2 r14
const r5 4294967292
mul r4 r4 r5
const r5 0
add r2 r2 r4
L592:
# memcpy sdk/runtime/memory.c:14
bne r2 r5 L600
# memcpy sdk/runtime/memory.c:17
ret
L594:
# memcpy sdk/runtime/memory.c:13
add r3 r1 r5
loadw r7 r3 0
add r3 r0 r5
const r14 4
add r5 r5 r14
storew r3 r7 0
# memcpy sdk/runtime/memory.c:12
jump L585
L600:
# memcpy sdk/runtime/memory.c:15
sub r3 r5 r4
add r7 r1 r3
loadb r7 r7 0
add r3 r0 r3
add r5 r5 r15
storeb r3 r7 0
jump L592
L607:
# memset sdk/runtime/memory.c:36
const r5 16843009
const r14 255
and r4 r1 r14
and r1 r1 r14
mul r1 r1 r5
# memset sdk/runtime/memory.c:38
add r3 r0 r2
# memset sdk/runtime/memory.c:35
move r5 r0
# memset sdk/runtime/memory.c:38
const r7 3
L615:
sub r6 r3 r5
bltu r7 r6 L621
const r14 4294967292
and r2 r2 r14
add r2 r2 r0
L619:
# memset sdk/runtime/memory.c:40
bne r2 r3 L624
# memset sdk/runtime/memory.c:43
ret
L621:
# memset sdk/runtime/memory.c:39
storew r5 r1 0
# memset sdk/runtime/memory.c:38
const r14 4
add r5 r5 r14
jump L615
L624:
# memset sdk/runtime/memory.c:41
add r2 r2 r15
storeb r2 r4 4294967295
jump L619
setup:
# (setup)
const r11 1024
const r15 1
ret
helper_div:
# (helper div)
storew r12 r0 1068
storew r12 r1 1072
const r1 2147483648
xor r0 r13 r14
bltu r13 r1 helper_div_dividend
sub r13 r12 r13
helper_div_dividend:
bltu r14 r1 helper_div_divisor
sub r14 r12 r14
helper_div_divisor:
div r13 r13 r14
bltu r0 r1 helper_div_result
sub r13 r12 r13
helper_div_result:
loadw r0 r12 1068
loadw r1 r12 1072
ret
