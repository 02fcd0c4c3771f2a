; an odd house number at the start of the left side
mov r0, 0           ; not selected
ldxb r2, [r1+68]    ; FRADDL, its last byte: place 69
jne r2, 32, last    ; 32 is a blank
ldxb r2, [r1+67]    ; the byte before it
jne r2, 32, last
ldxb r2, [r1+66]
jne r2, 32, last
ldxb r2, [r1+65]
jne r2, 32, last
ldxb r2, [r1+64]
jne r2, 32, last
ldxb r2, [r1+63]
jne r2, 32, last
ldxb r2, [r1+62]
jne r2, 32, last
ldxb r2, [r1+61]
jne r2, 32, last
ldxb r2, [r1+60]
jne r2, 32, last
ldxb r2, [r1+59]
jne r2, 32, last
ldxb r2, [r1+58]    ; its first byte: place 59
last:
jlt r2, 48, out     ; before the digit 0
jgt r2, 57, out     ; after the digit 9
mov r0, r2
and r0, 1           ; 1 if it's odd, which selects; else 0
out:
exit
