# Combined lines of generate.py as logfmt's JSON: cut at quotes, then at spaces.
BEGIN {
    FS = "\""
    split("Jan Feb Mar Apr May Jun Jul Aug Sep Oct Nov Dec", names, " ")
    for (k in names) month[names[k]] = sprintf("%02d", k)
}

function text(field) { return field == "-" ? "null" : "\"" field "\"" }

{
    split($1, head, " ")
    split($3, end, " ")
    time = substr(head[4], 9, 4) "-" month[substr(head[4], 5, 3)] "-" substr(head[4], 2, 2) "T" substr(head[4], 14) \
        ".000" substr(head[5], 1, 3) ":" substr(head[5], 4, 2)
    print "[" text(head[1]) "," text(head[2]) "," text(head[3]) ",\"" time "\"," text($2) "," \
        (end[1] == "-" ? "null" : end[1]) "," (end[2] == "-" ? 0 : end[2]) "," text($4) "," text($6) "]"
}
