# Reads `git diff -U0` of stored outputs and tells each changed line that differs in more than the divisors of its amounts: two lines are alike if they have
# the same words, but for pairs p q of equal worth. Lines are paired by their places; what is left over came or went.
function whole(w) { return w ~ /^-?[0-9]+$/ }
function same_worth(p, q, r, s) { return whole(p) && whole(q) && whole(r) && whole(s) && q != 0 && s != 0 && p * s == r * q }
function alike(a, b,    x, y, n, i) {
    n = split(a, x, " ")
    if (split(b, y, " ") != n) return 0
    for (i = 1; i <= n; i++) {
        if (x[i] == y[i] && x[i + 1] == y[i + 1]) continue
        if (i < n && same_worth(x[i], x[i + 1], y[i], y[i + 1])) i++
        else if (x[i] != y[i]) return 0
    }
    return 1
}
function tell(    i, most) {
    most = gone < come ? gone : come
    for (i = 1; i <= most; i++)
        if (alike(old[i], new[i])) divisors++
        else { other++; print file ": " old[i] "  ->  " new[i] }
    for (i = most + 1; i <= gone; i++) { went++; print file ": gone: " old[i] }
    for (i = most + 1; i <= come; i++) { came++; print file ": new: " new[i] }
    gone = come = 0
}
/^diff / || /^@@/ { tell(); next }
/^\+\+\+ / { file = substr($2, 3); next }
/^--- / { next }
/^-/ { old[++gone] = substr($0, 2) }
/^\+/ { new[++come] = substr($0, 2) }
END {
    tell()
    printf "%d changed lines: %d in divisors alone, %d in more; %d lines new, %d gone\n", divisors + other, divisors, other, came, went
    exit other > 0
}
