# The root forks all ten; then the last runs first.
yes / | head -n 70
for number in $(seq 9 -1 0); do yes "/$number" | head -n 20; done
