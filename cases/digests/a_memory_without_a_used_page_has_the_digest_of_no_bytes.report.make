. ./text.sh
echo "/ fetch-fault 00000000 00000000 1 $(sha256sum < /dev/null | head -c 64)"
