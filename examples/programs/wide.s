; the places of a program with a wide load, which takes two
ldxb r2, [r1+55]
lddw r0, 4294967296   ; 2 to the 32nd
jeq r2, 65, out
mov r0, 0
out:
exit
