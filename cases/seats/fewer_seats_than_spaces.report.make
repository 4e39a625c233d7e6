echo "/ ret 00000000 00001044 11006"
for thread in {0..999}; do
    if ((thread % 2)); then used=5; else used=6007; fi
    echo "/$thread ret 00000001 00001064 $used"
done
