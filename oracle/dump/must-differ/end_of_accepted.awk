# `end` counts accepted frames alone
/^== / { accepted = 0 }
/^frame [0-9]+ bytes / { accepted++ }
/^end / { $2 = accepted }
{ print }
