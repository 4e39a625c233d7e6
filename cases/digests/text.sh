# The text of a memory, of which the report gives the digest: of each page with a permission or a byte other than 0, its number in four bytes, its
# permission in one, and its 4,096 bytes. To be read by the scripts beside it.

# The bytes that these digits spell.
bytes() { printf '%b' "$(printf '%s' "$1" | sed 's/../\\x&/g')"; }

# A page: its number, eight digits, the least byte first; its permission, two digits; and the bytes at its beginning, from standard input.
page() {
    bytes "$1$2"
    { cat; head -c 4096 /dev/zero; } | head -c 4096
}

# The bytes of an image's first segment, which has so many.
code() { tail -c +24 "$1" | head -c "$2"; }

# The digest of the text on standard input.
digest() { sha256sum | head -c 64; }
