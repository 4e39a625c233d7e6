. ./shown
shown "/1 event 2" running "00001070 addi a7, zero, 3" 999998 none 2 s0=00000001 a0=00000011
pages 00001000 00001fff 5
