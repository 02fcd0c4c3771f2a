; roads that don't have the same ZIP Code on both sides
stxdw [r10-8], r1     ; the segment, for later
mov r1, 5             ; ZIPL
call 1                ; field: its number, 0 if it has none
stxdw [r10-16], r0    ; the number, for later
mov r1, 6             ; ZIPR
call 1
mov r3, r0
mov r0, 0             ; not selected
ldxdw r2, [r10-16]    ; ZIPL's number again
jeq r2, r3, out       ; the same on both sides
ldxdw r1, [r10-8]     ; the segment again
ldxb r2, [r1+55]      ; CFCC, place 56
jne r2, 65, out       ; A
mov r0, 1             ; selected
out:
exit
