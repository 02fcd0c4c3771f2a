; segments that have the house number 1785 in one of their first four ranges
mov r1, 0         ; range 0
mov r2, 1785
call 5            ; in_range
jne r0, 0, out    ; found
mov r1, 1         ; range 1
mov r2, 1785
call 5
jne r0, 0, out
mov r1, 2
mov r2, 1785
call 5
jne r0, 0, out
mov r1, 3
mov r2, 1785
call 5            ; 0 if none of the four has it
out:
exit
