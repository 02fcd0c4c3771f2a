; an odd house number at the start of the left side, by a helper function
mov r1, 1             ; FRADDL
call 1                ; field: its number, 0 if it has none
and r0, 1             ; 1 if it is odd
exit
