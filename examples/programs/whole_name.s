; segments named Main and nothing more, in uppercase or lowercase
stw [r10-4], 0x6e69616d   ; main, the last letter first
mov r1, 0                 ; name 0: the segment's own
mov r2, r10
add r2, -4                ; where the letters are
mov r3, 4                 ; how many there are
call 7                    ; name_is: 1 if it is this name, else 0
exit
