yes "$(printf '/\n/1')" | head -n 12000
