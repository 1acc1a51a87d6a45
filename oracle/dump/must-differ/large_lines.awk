# lines are cut to 16 bits
/^lines / {
    for (k = 3; k <= NF; k++) {
        split($k, parts, ":")
        if (parts[2] > 32767) $k = parts[1] ":32767"
    }
}
{ print }
