.segment 0x5000 3
.segment 0x1000 1
        .byte 1
