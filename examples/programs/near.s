; accepted: the offset is at most 227 wherever it is used
mov r0, 0
ldxb r2, [r1+55]
jgt r2, 227, out
add r1, r2
ldxb r0, [r1+0]
out:
exit
