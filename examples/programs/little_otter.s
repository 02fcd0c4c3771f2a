; segments named Little Otter and nothing more: twelve letters, stored as eight and four
lddw r2, 0x4f20656c7474694c   ; Little O, the last letter first
stxdw [r10-12], r2
stw [r10-4], 0x72657474       ; tter
mov r1, 0                     ; name 0: the segment's own
mov r2, r10
add r2, -12                   ; where the letters are
mov r3, 12                    ; how many there are
call 7                        ; name_is
exit
