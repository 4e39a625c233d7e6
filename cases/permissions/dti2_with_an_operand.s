.dti2 1
.segment 0x1000 5
