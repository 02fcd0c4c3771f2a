; segments with the name Main: their own, or one of their first three alternate names
stw [r10-4], 0x6e69616d   ; main, the last letter first
mov r1, 0                 ; name 0: the segment's own
mov r2, r10
add r2, -4                ; where the letters are
mov r3, 4                 ; how many there are
call 7                    ; name_is
jne r0, 0, out            ; found
mov r1, 1                 ; name 1: the first alternate name
mov r2, r10
add r2, -4
mov r3, 4
call 7
jne r0, 0, out
mov r1, 2
mov r2, r10
add r2, -4
mov r3, 4
call 7
jne r0, 0, out
mov r1, 3
mov r2, r10
add r2, -4
mov r3, 4
call 7                    ; 0 if none of the four is it
out:
exit
