. ./shown
shown "/ event 3" "fuel 00000000" "00001008 addi a7, zero, 4" 0 none 2 a1=00002000 a2=0000000d
pages 00001000 00002fff 5
