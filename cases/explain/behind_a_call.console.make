. ./shown
shown "/ event 4" running "00001010 addi a7, zero, 3" 999996 none 4 a1=00002000 a2=0000000d a7=00000004
pages 00001000 00002fff 5
