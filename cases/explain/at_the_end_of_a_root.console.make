. ./shown
shown "/ end" "breakpoint 00001010" "00001010 ebreak" 999995 none 5 a1=00002000 a2=0000000d a7=00000004
pages 00001000 00002fff 5
