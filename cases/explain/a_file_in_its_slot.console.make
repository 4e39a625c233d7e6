. ./shown
shown "/ event 5" running "00001014 addi a7, zero, 3" 999995 none 5 a1=00002000 a2=00000003 a3=00000001 a7=00000018
pages 00001000 00002fff 5
echo "file 0 log version 1 length 0 base 0 append"
