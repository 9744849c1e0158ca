# Counts an access log by itself, and prints what metrics_prometheus_tool prints for the lines of to_lines.awk.

# A label's value in double quotes, with a backslash before each double quote and each backslash.
function quoted(text) {
    gsub(/[\\"]/, "\\\\&", text)
    return "\"" text "\""
}

# Sorts the keys of `of` into `keys`, and returns how many there are.
function sorted(of, keys,    n, i, key) {
    n = 0
    for (key in of) {
        for (i = n++; i > 0 && keys[i] > key; i--) keys[i + 1] = keys[i]
        keys[i + 1] = key
    }
    return n
}

function print_counter(name, text, of,    n, i, keys) {
    print "# HELP " name " " text
    print "# TYPE " name " counter"
    n = sorted(of, keys)
    for (i = 1; i <= n; i++) printf "%s{%s} %.0f\n", name, keys[i], of[keys[i]]
}

BEGIN {
    bounds = split("5 10 25 50 100 250 500 1000 2500 5000 10000", bound, " ")
}

{
    code = $(NF - 2)
    request = substr($0, index($0, "\"") + 1)
    request = substr(request, 1, length(request) - length($NF) - length($(NF - 1)) - length(code) - 4)
    method = request
    sub(/ .*/, "", method)
    path = substr(request, length(method) + 2)
    sub(/ [^ ]*$/, "", path)
    requests["code=\"" code "\",method=\"" method "\",path=" quoted(path)]++
    bytes["path=" quoted(path)] += $(NF - 1)
    for (i = 1; i <= bounds && $NF + 0 > bound[i] + 0; i++) { }
    buckets[method, i]++
    sum[method] += $NF
    count[method]++
}

END {
    print_counter("http_bytes", "Bytes of all answers.", bytes)
    print "# HELP http_duration How long an answer took."
    print "# TYPE http_duration histogram"
    n = sorted(count, methods)
    for (m = 1; m <= n; m++) {
        method = methods[m]
        below = 0
        for (i = 1; i <= bounds; i++) {
            below += buckets[method, i]
            printf "http_duration_bucket{method=\"%s\",le=\"%s\"} %.0f\n", method, bound[i], below
        }
        printf "http_duration_bucket{method=\"%s\",le=\"+Inf\"} %.0f\n", method, count[method]
        printf "http_duration_sum{method=\"%s\"} %.0f\n", method, sum[method]
        printf "http_duration_count{method=\"%s\"} %.0f\n", method, count[method]
    }
    print_counter("http_requests", "Requests that were answered.", requests)
    print ""
}
