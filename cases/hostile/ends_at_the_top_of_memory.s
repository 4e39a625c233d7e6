; Its one instruction is the last word of memory: the next one is fetched from address 0.
.entry 0xfffffffc
.segment 0xfffffffc 1
        .word 0x13
