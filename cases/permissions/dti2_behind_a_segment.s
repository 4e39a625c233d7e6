.segment 0x1000 1
.dti2
