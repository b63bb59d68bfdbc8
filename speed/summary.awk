# The rows of docs/PERFORMANCE.md out of what `bench` printed in several link orders: of each implementation the least and the median ns a step,
# and of the proved turn and gcc's C the least, the greatest and the median ratio to each yardstick. speed/run ends with it.
function median(key, p,    n, i, j, t, v) {
    n = count[key]
    for (i = 1; i <= n; i++) v[i] = value[key, i, p]
    for (i = 2; i <= n; i++)
        for (j = i; j > 1 && v[j] < v[j - 1]; j--) { t = v[j]; v[j] = v[j - 1]; v[j - 1] = t }
    low = v[1]; high = v[n]
    return n % 2 ? v[(n + 1) / 2] : (v[n / 2] + v[n / 2 + 1]) / 2
}
function row(key, title, ratio,    p, m) {
    printf "| %s |", title
    for (p = 1; p <= width[key]; p++) {
        m = median(key, p)
        if (value[key, 1, p] == "-") printf " - |"; else if (ratio) printf " %.2f to %.2f, %.2f |", low, high, m; else printf " %.2f, %.2f |", low, m
    }
    print ratio ? "" : " |"
}
$1 == "ns" { mode = "ns"; names = ""; for (i = 4; i <= NF; i++) names = names " " $i " |"; next }
$1 == "of" { mode = $2; if (!(mode in seen)) { seen[mode] = 1; bases[++nb] = mode }; next }
/^  [a-z]/ && mode != "" {
    key = $1 " " mode
    if (!(key in count) && mode == "ns") impls[++ni] = $1
    count[key]++
    width[key] = NF - 1
    for (i = 2; i <= NF; i++) value[key, count[key], i - 1] = $i
}
END {
    print "| ns a step: least, median |" names " geometric mean |"
    gsub(/[a-z]+/, "---", names); gsub(/ /, "", names)
    print "|---|" names "---|"
    for (i = 1; i <= ni; i++) row(impls[i] " ns", impls[i], 0)
    for (b = 1; b <= nb; b++) for (i = 3; i <= ni; i++) row(impls[i] " " bases[b], impls[i] " of " bases[b], 1)
}
