# refusal 9 has its width behind the cursor
/ refused 9 / { width = $5; $5 = $6; $6 = width }
{ print }
