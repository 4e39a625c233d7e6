yes /0 | head -c 1048575
