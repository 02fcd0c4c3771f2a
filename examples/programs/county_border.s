; segments with another county on the left than on the right
ldxw r2, [r1+134]   ; COUNTYL, places 135 to 137, and one more
be32 r2             ; the first byte counts most
rsh r2, 8           ; without the one
ldxw r3, [r1+137]   ; COUNTYR, places 138 to 140, and one more
be32 r3
rsh r3, 8
mov r0, 0           ; not selected
jeq r2, r3, out
mov r0, 1           ; selected
out:
exit
