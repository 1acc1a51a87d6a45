# refusal 9 has the cursor behind the bit that is missing
/ refused 9 / { $6 += $5 }
{ print }
