# The root and thread 0 have an A at 0x2000, thread 1 a B.
. ./text.sh
digest_with() {
    {
        code ../../examples/conflict.img 92 | page 01000000 05
        bytes "$1" | page 02000000 07
    } | digest
}
echo "/ conflict 00002000 00001030 20 $(digest_with 41)"
echo "/0 ret 00000001 0000105c 7 $(digest_with 41)"
echo "/1 ret 00000001 0000105c 7 $(digest_with 42)"
