# UUID 6f2a1c00-31d5-4b7e-9c41-0d5e8a772106
.flags 28
.pages 1
.entry create entry_create
.entry open entry_open
.entry invoke entry_invoke
.entry close entry_close
.entry destroy entry_destroy
L0:
# take sdk/runtime/entry.c:13
move r4 r0
move r5 r1
# take sdk/runtime/entry.c:14
const r2 0
const r7 4
L4:
# take sdk/runtime/entry.c:17
and r3 r4 r8
move r0 r2
# take sdk/runtime/entry.c:19
add r2 r2 r15
# take sdk/runtime/entry.c:17
beq r3 r12 L17
# take sdk/runtime/entry.c:18
sys 5
move r1 r0
# take sdk/runtime/entry.c:19
const r14 28
shl r3 r2 r14
L11:
# take sdk/runtime/entry.c:23
storew r5 r3 0
# take sdk/runtime/entry.c:24
storew r5 r1 4
# take sdk/runtime/entry.c:14
shr r4 r4 r8
const r14 8
add r5 r5 r14
bne r2 r7 L4
# take sdk/runtime/entry.c:26
ret
L17:
# take sdk/runtime/entry.c:20
const r14 3
and r3 r4 r14
# take sdk/runtime/entry.c:15
const r1 0
# take sdk/runtime/entry.c:20
beq r3 r12 L11
# take sdk/runtime/entry.c:21
sys 3
move r3 r0
jump L11
L23:
# give sdk/runtime/entry.c:30
move r5 r0
move r4 r1
# give sdk/runtime/entry.c:31
const r0 0
L26:
bne r5 r12 L28
# give sdk/runtime/entry.c:39
ret
L28:
# give sdk/runtime/entry.c:32
const r14 2
and r3 r5 r14
beq r3 r12 L35
# give sdk/runtime/entry.c:34
and r3 r5 r8
# give sdk/runtime/entry.c:35
loadw r2 r4 4
# give sdk/runtime/entry.c:34
beq r3 r12 L39
# give sdk/runtime/entry.c:35
move r1 r2
sys 6
L35:
# give sdk/runtime/entry.c:31
add r0 r0 r15
shr r5 r5 r8
const r14 8
add r4 r4 r14
jump L26
L39:
# give sdk/runtime/entry.c:37
loadw r1 r4 0
sys 4
jump L35
L42:
# put_hex sdk/runtime/properties.c:138
sub r4 r2 r15
move r3 r0
# put_hex sdk/runtime/properties.c:139
const r7 512
# put_hex sdk/runtime/properties.c:138
const r6 4294967295
L46:
# put_hex sdk/runtime/properties.c:139
const r14 2
shl r5 r4 r14
shr r5 r1 r5
const r13 15
and r5 r5 r13
add r5 r7 r5
loadb r5 r5 0
# put_hex sdk/runtime/properties.c:138
sub r4 r4 r15
# put_hex sdk/runtime/properties.c:139
add r3 r3 r15
storeb r3 r5 4294967295
# put_hex sdk/runtime/properties.c:138
bne r4 r6 L46
# put_hex sdk/runtime/properties.c:141
add r0 r0 r2
ret
L57:
# put_decimal sdk/runtime/properties.c:145
const r5 1
# put_decimal sdk/runtime/properties.c:147
const r4 9
# put_decimal sdk/runtime/properties.c:148
const r2 10
L60:
# put_decimal sdk/runtime/properties.c:147
div r3 r1 r5
bltu r4 r3 L65
# put_decimal sdk/runtime/properties.c:150
const r3 10
L63:
# put_decimal sdk/runtime/properties.c:149
bne r5 r12 L67
# put_decimal sdk/runtime/properties.c:152
ret
L65:
# put_decimal sdk/runtime/properties.c:148
mul r5 r5 r2
jump L60
L67:
# put_decimal sdk/runtime/properties.c:150
div r4 r1 r5
add r0 r0 r15
rem r4 r4 r3
const r14 48
add r4 r4 r14
# put_decimal sdk/runtime/properties.c:149
div r5 r5 r3
# put_decimal sdk/runtime/properties.c:150
storeb r0 r4 4294967295
# put_decimal sdk/runtime/properties.c:149
jump L63
L74:
# put_uuid sdk/runtime/properties.c:155
const r14 12
sub r11 r11 r14
storew r11 r9 4
move r9 r1
# put_uuid sdk/runtime/properties.c:156
loadw r1 r1 0
const r2 8
# put_uuid sdk/runtime/properties.c:155
storew r11 r10 0
# put_uuid sdk/runtime/properties.c:156
call L42
# put_uuid sdk/runtime/properties.c:157
const r10 45
storeb r0 r10 0
# put_uuid sdk/runtime/properties.c:158
loadb r14 r9 5
const r13 8
shl r14 r14 r13
loadb r1 r9 4
or r1 r14 r1
const r2 4
add r0 r0 r15
call L42
# put_uuid sdk/runtime/properties.c:159
storeb r0 r10 0
# put_uuid sdk/runtime/properties.c:160
loadb r14 r9 7
const r13 8
shl r14 r14 r13
loadb r1 r9 6
or r1 r14 r1
const r2 4
add r0 r0 r15
call L42
move r5 r0
# put_uuid sdk/runtime/properties.c:161
const r10 0
L95:
# put_uuid sdk/runtime/properties.c:162
const r14 4294967293
and r4 r10 r14
bne r4 r12 L100
# put_uuid sdk/runtime/properties.c:163
const r4 45
storeb r5 r4 0
add r5 r5 r15
L100:
# put_uuid sdk/runtime/properties.c:164
add r4 r9 r10
loadb r1 r4 8
move r0 r5
const r2 2
call L42
# put_uuid sdk/runtime/properties.c:161
add r10 r10 r15
const r4 8
# put_uuid sdk/runtime/properties.c:164
move r5 r0
# put_uuid sdk/runtime/properties.c:161
bne r10 r4 L95
# put_uuid sdk/runtime/properties.c:167
loadw r9 r11 4
loadw r10 r11 0
const r14 12
add r11 r11 r14
ret
entry_create:
# (data)
const r13 1
storew r12 r13 800
storew r12 r13 812
const r13 2
storew r12 r13 752
const r13 4
storew r12 r13 824
storew r12 r13 836
const r13 8
storew r12 r13 548
const r13 101
storew r12 r13 544
storew r12 r13 588
const r13 512
storew r12 r13 852
const r13 552
storew r12 r13 748
const r13 568
storew r12 r13 760
const r13 592
storew r12 r13 772
const r13 612
storew r12 r13 784
const r13 640
storew r12 r13 796
const r13 656
storew r12 r13 808
const r13 676
storew r12 r13 820
const r13 692
storew r12 r13 828
const r13 696
storew r12 r13 832
const r13 716
storew r12 r13 840
const r13 844
storew r12 r13 792
const r13 845
storew r12 r13 780
const r13 846
storew r12 r13 768
const r13 848
storew r12 r13 804
const r13 852
storew r12 r13 816
const r13 856
storew r12 r13 756
const r13 1024
storew r12 r13 848
const r13 28271
storew r12 r13 688
storew r12 r13 712
const r13 65793
storew r12 r13 844
const r13 3157553
storew r12 r13 692
const r13 6650473
storew r12 r13 652
const r13 7237481
storew r12 r13 608
const r13 102856586
storew r12 r13 868
const r13 544437353
storew r12 r13 728
const r13 544498024
storew r12 r13 724
const r13 778334311
storew r12 r13 552
storew r12 r13 568
storew r12 r13 592
storew r12 r13 612
storew r12 r13 640
storew r12 r13 656
storew r12 r13 676
storew r12 r13 696
const r13 858927408
storew r12 r13 512
const r13 926299444
storew r12 r13 516
const r13 1097885029
storew r12 r13 628
const r13 1145663600
storew r12 r13 560
const r13 1264935790
storew r12 r13 624
const r13 1266561493
storew r12 r13 860
const r13 1398895713
storew r12 r13 648
const r13 1577927068
storew r12 r13 864
const r13 1630429556
storew r12 r13 556
const r13 1635021678
storew r12 r13 620
const r13 1650538808
storew r12 r13 520
const r13 1668178292
storew r12 r13 584
const r13 1680761204
storew r12 r13 644
storew r12 r13 700
const r13 1684300064
storew r12 r13 740
const r13 1702195828
storew r12 r13 532
const r13 1702259052
storew r12 r13 632
const r13 1702521171
storew r12 r13 668
const r13 1717920867
storew r12 r13 524
const r13 1764647284
storew r12 r13 616
const r13 1769173605
storew r12 r13 684
const r13 1769237621
storew r12 r13 600
const r13 1769238633
storew r12 r13 708
const r13 1801675124
storew r12 r13 664
const r13 1818717801
storew r12 r13 576
const r13 1831756148
storew r12 r13 596
const r13 1853189955
storew r12 r13 716
const r13 1865030656
storew r12 r13 856
const r13 1919120229
storew r12 r13 704
const r13 1932419444
storew r12 r13 572
storew r12 r13 660
const r13 1936482662
storew r12 r13 540
const r13 1936607589
storew r12 r13 580
const r13 1936617321
storew r12 r13 736
const r13 1936942419
storew r12 r13 604
const r13 1936942451
storew r12 r13 732
const r13 1982751092
storew r12 r13 680
const r13 1998615412
storew r12 r13 720
# __ta_create sdk/runtime/entry.c:43
const r0 0
sys 0
entry_open:
# (setup)
call setup
# __ta_open sdk/runtime/entry.c:47
const r14 48
sub r11 r11 r14
# __ta_open sdk/runtime/entry.c:52
add r1 r11 r8
# __ta_open sdk/runtime/entry.c:47
storew r11 r0 0
storew r11 r9 40
storew r11 r10 36
# __ta_open sdk/runtime/entry.c:52
call L0
# TA_OpenSessionEntryPoint tally_ta.c:39
const r3 4096
const r0 920
bgeu r0 r3 L132
loadw r4 r12 920
bne r4 r12 L132
sub r4 r3 r0
const r14 4294967288
and r4 r4 r14
storew r12 r4 920
L132:
const r2 7
L133:
bgeu r0 r3 L156
loadw r4 r0 0
and r9 r4 r15
bne r9 r12 L170
const r14 4294967294
and r4 r4 r14
add r4 r0 r4
L139:
loadw r5 r0 0
bgeu r4 r3 L144
loadw r4 r4 0
and r1 r4 r15
beq r1 r12 L165
L144:
bgeu r2 r5 L170
const r14 8
sub r5 r5 r14
beq r5 r12 L148
storew r0 r5 8
L148:
const r5 9
storew r0 r5 0
const r2 4
const r1 0
add r0 r0 r8
call L343
move r10 r0
# TA_OpenSessionEntryPoint tally_ta.c:40
bne r0 r12 L159
L156:
# TA_OpenSessionEntryPoint tally_ta.c:39
const r10 0
# TA_OpenSessionEntryPoint tally_ta.c:40
const r9 4294901772
L159:
# __ta_open sdk/runtime/entry.c:54
loadw r0 r11 0
add r1 r11 r8
call L23
# __ta_open sdk/runtime/entry.c:55
move r0 r9
move r1 r10
sys 0
L165:
# TA_OpenSessionEntryPoint tally_ta.c:39
add r5 r5 r4
storew r0 r5 0
and r5 r5 r14
add r4 r0 r5
jump L139
L170:
loadw r5 r0 0
const r9 4294967294
and r5 r5 r9
add r0 r0 r5
jump L133
entry_invoke:
# (setup)
call setup
# __ta_invoke sdk/runtime/entry.c:59
const r14 96
sub r11 r11 r14
storew r11 r10 84
move r10 r1
storew r11 r9 88
# __ta_invoke sdk/runtime/entry.c:63
add r1 r11 r8
# __ta_invoke sdk/runtime/entry.c:59
move r9 r0
# __ta_invoke sdk/runtime/entry.c:63
move r0 r10
# __ta_invoke sdk/runtime/entry.c:59
storew r11 r2 0
# __ta_invoke sdk/runtime/entry.c:63
call L0
# TA_InvokeCommandEntryPoint tally_ta.c:50
bne r9 r12 L202
const r5 3
loadw r2 r11 0
bne r10 r5 L300
# add tally_ta.c:14
loadw r5 r11 4
loadw r4 r2 0
add r4 r5 r4
storew r2 r4 0
# add tally_ta.c:15
loadw r2 r12 896
# add tally_ta.c:16
storew r11 r4 4
# add tally_ta.c:15
add r5 r5 r2
storew r12 r5 896
# add tally_ta.c:17
storew r11 r5 8
L197:
# __ta_invoke sdk/runtime/entry.c:65
move r0 r10
add r1 r11 r8
call L23
# __ta_invoke sdk/runtime/entry.c:66
move r0 r9
sys 0
L202:
# TA_InvokeCommandEntryPoint tally_ta.c:52
bne r9 r15 L300
const r5 6
bne r10 r5 L300
# describe tally_ta.c:23
loadw r5 r11 4
const r14 36
add r0 r11 r14
storew r11 r5 0
sys 7
storew r12 r0 900
const r3 0
const r4 0
const r5 900
const r2 4
L215:
add r1 r11 r14
add r1 r1 r3
loadb r1 r1 0
const r13 8
shl r4 r4 r13
add r3 r3 r15
or r4 r1 r4
bne r3 r2 L215
storew r5 r4 4
loadw r4 r11 40
const r6 65535
and r4 r4 r6
const r2 8
shl r3 r4 r13
shr r4 r4 r13
or r4 r3 r4
storeb r5 r4 8
shr r7 r4 r13
storeb r5 r7 9
loadw r4 r11 42
and r4 r4 r6
const r7 44
add r1 r11 r7
const r0 912
shl r3 r4 r13
shr r4 r4 r13
or r4 r3 r4
storeb r5 r4 10
shr r3 r4 r13
storeb r5 r3 11
call L319
loadw r6 r12 548
const r5 748
const r4 0
L240:
bne r4 r6 L244
const r9 4294901768
jump L197
L244:
loadw r2 r5 0
move r0 r5
const r1 696
L247:
loadb r3 r2 0
loadb r7 r1 0
beq r3 r12 L251
beq r3 r7 L255
L251:
const r9 12
add r5 r5 r9
beq r3 r7 L303
add r4 r4 r15
jump L240
L255:
add r2 r2 r15
add r1 r1 r15
jump L247
L258:
bltu r3 r4 L264
bne r4 r12 L279
loadb r5 r9 0
beq r5 r12 L293
const r9 532
jump L266
L264:
const r3 3
beq r4 r3 L285
L266:
loadw r4 r11 8
move r2 r9
L268:
loadb r3 r2 0
bne r3 r12 L295
sub r2 r2 r9
add r2 r2 r15
storew r11 r2 8
bltu r4 r2 L297
loadw r0 r11 0
move r1 r9
const r9 0
call L319
jump L197
L279:
loadw r1 r9 0
const r14 36
add r0 r11 r14
call L57
L282:
storeb r0 r12 0
const r14 36
add r9 r11 r14
jump L266
L285:
loadw r1 r9 0
const r14 36
add r0 r11 r14
call L57
const r4 58
storeb r0 r4 0
add r1 r9 r8
add r0 r0 r15
jump L309
L293:
const r9 540
jump L266
L295:
add r2 r2 r15
jump L268
L297:
const r9 4294901776
# TA_InvokeCommandEntryPoint tally_ta.c:53
jump L197
L300:
# TA_InvokeCommandEntryPoint tally_ta.c:54
const r9 4294901766
jump L197
L303:
# describe tally_ta.c:23
loadw r4 r0 4
const r3 2
loadw r9 r0 8
bne r4 r3 L258
move r1 r9
const r14 36
add r0 r11 r14
L309:
call L74
jump L282
entry_close:
# TA_CloseSessionEntryPoint tally_ta.c:45
beq r2 r12 L315
loadw r5 r2 4294967292
const r9 4294967294
and r5 r5 r9
storew r2 r5 4294967292
L315:
# __ta_close sdk/runtime/entry.c:74
const r0 0
sys 0
entry_destroy:
# __ta_destroy sdk/runtime/entry.c:80
const r0 0
sys 0
L319:
# memcpy sdk/runtime/memory.c:12
const r5 0
const r4 3
L321:
sub r3 r2 r5
bltu r4 r3 L330
const r14 2
shr r4 r2 r14
const r5 4294967292
mul r4 r4 r5
const r5 0
add r2 r2 r4
L328:
# memcpy sdk/runtime/memory.c:14
bne r2 r5 L336
# memcpy sdk/runtime/memory.c:17
ret
L330:
# memcpy sdk/runtime/memory.c:13
add r3 r1 r5
loadw r7 r3 0
add r3 r0 r5
add r5 r5 r8
storew r3 r7 0
# memcpy sdk/runtime/memory.c:12
jump L321
L336:
# memcpy sdk/runtime/memory.c:15
sub r3 r5 r4
add r7 r1 r3
loadb r7 r7 0
add r3 r0 r3
add r5 r5 r15
storeb r3 r7 0
jump L328
L343:
# memset sdk/runtime/memory.c:36
const r5 16843009
const r14 255
and r4 r1 r14
and r1 r1 r14
mul r1 r1 r5
# memset sdk/runtime/memory.c:38
add r3 r0 r2
# memset sdk/runtime/memory.c:35
move r5 r0
# memset sdk/runtime/memory.c:38
const r7 3
L351:
sub r6 r3 r5
bltu r7 r6 L357
const r14 4294967292
and r2 r2 r14
add r2 r2 r0
L355:
# memset sdk/runtime/memory.c:40
bne r2 r3 L360
# memset sdk/runtime/memory.c:43
ret
L357:
# memset sdk/runtime/memory.c:39
storew r5 r1 0
# memset sdk/runtime/memory.c:38
add r5 r5 r8
jump L351
L360:
# memset sdk/runtime/memory.c:41
add r2 r2 r15
storeb r2 r4 4294967295
jump L355
setup:
# (setup)
const r11 512
const r15 1
const r8 4
ret
