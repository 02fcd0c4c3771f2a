; a ZIP Code from 36000 to 36066, on the left or on the right
mov r0, 1                 ; selected
lddw r3, 0x3336303030     ; 36000
lddw r4, 0x3336303636     ; 36066
ldxdw r2, [r1+106]        ; ZIPL, places 107 to 111, and three more
be64 r2                   ; the first byte counts most
rsh r2, 24                ; without the three
jlt r2, r3, right
jle r2, r4, out           ; in the range: selected
right:
ldxdw r2, [r1+111]        ; ZIPR, places 112 to 116, and three more
be64 r2
rsh r2, 24
jlt r2, r3, neither
jle r2, r4, out
neither:
mov r0, 0                 ; not selected
out:
exit
