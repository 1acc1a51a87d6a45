# a refused frame does not count in the numbers of those behind it
/^== / { lost = 0 }
/^(frame|end) / && lost { $2 -= lost }
/^frame [0-9]+ refused / { lost++ }
{ print }
