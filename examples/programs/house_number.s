; segments that have the house number 1785, on the left or on the right
mov r1, 0       ; range 0: the segment's own
mov r2, 1785    ; the house number
call 5          ; in_range: 1 left, 2 right, 3 both, 0 not there
exit
