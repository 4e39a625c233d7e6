; A refusal: the immediate of an ADDI is at most 2,047.
.segment 0x1000 1
        addi a7, zero, 4096
