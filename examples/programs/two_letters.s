; local roads with ZIP Code 36067 on the left whose name begins with M or Y
mov r0, 0                 ; not selected
ldxw r2, [r1+55]          ; CFCC and one more byte
be32 r2
rsh r2, 8
jne r2, 0x413431, out     ; A41
ldxdw r2, [r1+106]        ; ZIPL and three more bytes
be64 r2
rsh r2, 24
lddw r3, 0x3336303637     ; 36067
jne r2, r3, out
ldxb r2, [r1+19]          ; the name's first letter
jeq r2, 77, selected      ; M
jne r2, 89, out           ; Y
selected:
mov r0, 1
out:
exit
