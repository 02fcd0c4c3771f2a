; segments with alternate names; the score is their number
call 3                ; names: how many alternate names there are
mov r6, r0
mov r1, r0
call 8                ; emit: the score
mov r0, r6            ; selected, unless there are none
exit
