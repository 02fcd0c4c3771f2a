; names that begin with Main, in uppercase or lowercase
mov r0, 0                 ; not selected
ldxw r2, [r1+19]          ; FENAME, places 20 to 23
be32 r2                   ; the first byte counts most
or r2, 0x20202020         ; all letters lowercase
jne r2, 0x6d61696e, out   ; main
mov r0, 1                 ; selected
out:
exit
