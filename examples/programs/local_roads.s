; local roads: class A41
mov r0, 0           ; not selected
ldxb r2, [r1+55]    ; CFCC, place 56
jne r2, 65, out     ; A
ldxb r2, [r1+56]    ; place 57
jne r2, 52, out     ; 4
ldxb r2, [r1+57]    ; place 58
jne r2, 49, out     ; 1
mov r0, 1           ; selected
out:
exit
