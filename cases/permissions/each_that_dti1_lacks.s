; The permissions 1, 3, 4 and 6, taken as written, and one that DTI1 has.
.dti2
.segment 0x1000 4
        .byte 1
.segment 0x2000 1
        .byte 2
.segment 0x3000 3
        .byte 3
.segment 0x4000 6
        .byte 4
.segment 0x5000 5
        .byte 5
