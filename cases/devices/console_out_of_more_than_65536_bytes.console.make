printf '\004'; head -c 65535 /dev/zero
