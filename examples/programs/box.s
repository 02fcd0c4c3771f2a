; segments that start from 32.4 to 32.5 degrees north and from 86.6 to 86.7 degrees west
mov r1, 1                   ; FRLAT
call 9                      ; coord: in millionths of a degree
jslt r0, 32400000, no
jsgt r0, 32500000, no
mov r1, 0                   ; FRLONG
call 9
jslt r0, -86700000, no
jsgt r0, -86600000, no
mov r0, 1                   ; selected
exit
no:
mov r0, 0                   ; not selected
exit
