. ./text.sh
digest=$( {
    code several_pages.img 64 | page 01000000 05
    page 02000000 07 < /dev/null
    { head -c 2748 /dev/zero; bytes 09; } | page 03000000 00
    { bytes 04; head -c 4094 /dev/zero; bytes 05; } | page ffff0f00 07
} | digest)
echo "/ ret 00000000 00001040 16 $digest"
