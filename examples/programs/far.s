; refused: the offset may be up to 255, and the record's last byte is at 227
ldxb r2, [r1+55]
add r1, r2
ldxb r0, [r1+0]
exit
