# negative lines lose their minus
/^lines / { gsub(/:-/, ":") }
{ print }
