. ./shown
shown "/ event 1" running "00001004 addi a2, zero, 13" 999999 none 1 a1=00002000
pages 00001000 00002fff 5
