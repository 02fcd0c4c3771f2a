; every segment that isn't hydrography
ldxb r0, [r1+55]    ; the first letter of its class
add r0, -72         ; H is 72: 0 for hydrography alone
exit
