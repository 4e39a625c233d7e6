; A refusal: there is no register x32, so the assembler names this source's line 3, and nothing runs.
.segment 0x1000 1
        addi x32, zero, 1
