. ./text.sh
digest=$(bytes 930830001305700073000000 | page 01000000 05 | digest)
echo "/ ret 00000007 0000100c 3 $digest"
