. ./shown
shown "/0 event 2" running "00001014 addi a7, zero, 3" 999998 none 2 s0=00003000 a0=00000001 a7=00000012
pages 00001000 00001fff 5
pages 00003000 00003fff 7
echo "changed 00003000"
