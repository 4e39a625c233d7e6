# Words and numbers: counts, formats, arrays, functions, regular expressions, and a file that it writes.
function fib(n) { return n < 2 ? n : fib(n - 1) + fib(n - 2) }
{
    for (i = 1; i <= NF; i++) {
        word = tolower($i)
        gsub(/[^a-z]/, "", word)
        if (word != "") count[word]++
        if ($i ~ /^-?[0-9.e]+$/) sum += $i
    }
    lengths[NR] = length($0)
}
END {
    print NR, sum, fib(15), 1 / 3, 2 ^ 31, int(-3.7), 7 % 4, "10" + 5, "abc" < "abd"
    printf "%d %5.2f %e %g %s %c %x\n", 42.9, 3.14159, 12345.678, 1e-5, "text", 65, 255
    for (x = 0.5; x < 4; x += 0.75) printf "%.12g %.12g %.12g %.12g\n", sin(x), cos(x), exp(x), log(x)
    for (word in count) if (count[word] > 3) print count[word], word > "counts"
    close("counts")
    while ((getline line < "counts") > 0) lines++
    print lines, length(lengths), substr("determinator", 4, 5), index("kernel", "n"), match("a race", /r.c/), RSTART, RLENGTH
    print split("a:b:c", parts, ":"), parts[3], toupper("x"), sprintf("%03d", 7)
    exit 3
}
