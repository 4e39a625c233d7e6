# More events than any of these programs has, each taken alone: no instruction is kept decoded from one to the next.
yes / | head -n 6000
