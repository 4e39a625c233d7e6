; Without .dti2 permissions are 0 to 3, and what may be read may be executed too.
.segment 0x1000 1
        .byte 1
.segment 0x2000 0
        .byte 2
.segment 0x3000 3
        .byte 3
.segment 0x4000 2
        .byte 4
