; segments that have the house number 1785; the score is 10000 on the left and 20000 on the right,
; and how far it is from the number that the side begins with
mov r1, 0           ; range 0
mov r2, 1785
call 5              ; in_range
jeq r0, 0, out      ; not there: not selected
mov r6, r0          ; the side, for later
mov r1, 1           ; FRADDL
jne r6, 2, start
mov r1, 3           ; FRADDR, if it's on the right alone
start:
call 1              ; field: the number that the side begins with
mov r7, 1785
jge r0, r7, falling
sub r7, r0          ; numbers grow: 1785 less the first one
ja score
falling:
sub r0, r7          ; numbers fall: the first one less 1785
mov r7, r0
score:
mul r6, 10000
add r6, r7
mov r1, r6
call 8              ; emit: the score
mov r0, 1           ; selected
out:
exit
