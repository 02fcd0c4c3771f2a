; segments with the name Gristmill: their own, or one of their first eight alternate names
; a segment with more of them may have it as its ninth: it is selected too, with the score 1
lddw r2, 0x6c696d7473697267   ; gristmil, the last letter first
stxdw [r10-9], r2
stb [r10-1], 0x6c             ; l
mov r6, r10
add r6, -9                    ; where the letters are
mov r1, 0                     ; name 0: the segment's own
mov r2, r6
mov r3, 9                     ; how many letters there are
call 7                        ; name_is
jne r0, 0, out                ; found
mov r1, 1                     ; name 1: the first alternate name
mov r2, r6
mov r3, 9
call 7
jne r0, 0, out
mov r1, 2
mov r2, r6
mov r3, 9
call 7
jne r0, 0, out
mov r1, 3
mov r2, r6
mov r3, 9
call 7
jne r0, 0, out
mov r1, 4
mov r2, r6
mov r3, 9
call 7
jne r0, 0, out
mov r1, 5
mov r2, r6
mov r3, 9
call 7
jne r0, 0, out
mov r1, 6
mov r2, r6
mov r3, 9
call 7
jne r0, 0, out
mov r1, 7
mov r2, r6
mov r3, 9
call 7
jne r0, 0, out
mov r1, 8
mov r2, r6
mov r3, 9
call 7
jne r0, 0, out
call 3                        ; names: how many alternate names there are
jgt r0, 8, more
mov r0, 0                     ; all were compared, and none is it
exit
more:
mov r1, 1
call 8                        ; emit: the score
mov r0, 1                     ; selected
out:
exit
