; A refusal: 99 is no call number, so the call stops the space as badcall, with 1, the number of the test that fails.
.segment 0x1000 1
        addi a7, zero, 99
        ecall
