; Line 4 is the first that is refused.
.dti2
.segment 0x1000 7
.segment 0x2000 8
