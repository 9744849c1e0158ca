# Turns an access log into lines of metrics_prometheus_tool: awk -f to_lines.awk access.log
# The last three words of a log line are the status, the bytes and the milliseconds; the request stands in double quotes.

# A label's value in double quotes, with a backslash before each double quote and each backslash.
function quoted(text) {
    gsub(/[\\"]/, "\\\\&", text)
    return "\"" text "\""
}

BEGIN {
    print "describe counter http_requests count Requests that were answered."
    print "describe counter http_bytes bytes Bytes of all answers."
    print "describe histogram http_duration milliseconds How long an answer took."
}

{
    code = $(NF - 2)
    request = substr($0, index($0, "\"") + 1)
    request = substr(request, 1, length(request) - length($NF) - length($(NF - 1)) - length(code) - 4)
    method = request
    sub(/ .*/, "", method)
    path = substr(request, length(method) + 2)
    sub(/ [^ ]*$/, "", path)
    print "increment 1 http_requests code=" code " method=" method " path=" quoted(path)
    print "increment " $(NF - 1) " http_bytes path=" quoted(path)
    print "record " $NF " http_duration method=" method
}
