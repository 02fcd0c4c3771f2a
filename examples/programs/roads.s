; roads: every class that begins with A
mov r0, 0           ; not selected
ldxb r2, [r1+55]    ; CFCC, place 56
jne r2, 65, out     ; A
mov r0, 1           ; selected
out:
exit
