. ./shown
shown "/ event 2" running "0000105c ecall" 999998 none 2 sp=fffffff0 a0=00000007 a7=00000003
pages 00001000 00001fff 5
pages ffff0000 ffffffff 3
