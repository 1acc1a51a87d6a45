# refusal 9 has the bit index, not the cursor
/ refused 9 / { $6 %= 8 }
{ print }
