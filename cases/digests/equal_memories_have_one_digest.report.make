# The root and thread 0 have a 0 at 0x2000, thread 1 a 1.
. ./text.sh
digest_with() {
    {
        code numbered_threads.img 64 | page 01000000 05
        bytes "$1" | page 02000000 07
    } | digest
}
echo "/ ret 00000000 0000102c 11 $(digest_with 00)"
echo "/0 ret 00000000 00001040 6 $(digest_with 00)"
echo "/1 ret 00000000 00001040 6 $(digest_with 01)"
