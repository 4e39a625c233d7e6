; The permissions 0, 2, 5 and 7, taken as written. DTI1 can write them all, so it is DTI1 that is written, twice .dti2 or not.
.dti2
.dti2
.segment 0x1000 5
        .byte 1
.segment 0x2000 0
        .byte 2
.segment 0x3000 7
        .byte 3
.segment 0x4000 2
        .byte 4
