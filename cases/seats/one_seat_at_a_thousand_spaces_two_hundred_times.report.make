echo "/ ret 00000000 00001044 11006"
for thread in {0..999}; do
    echo "/$thread ret 00000001 00001058 204"
done
