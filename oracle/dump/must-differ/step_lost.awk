# refusal 10 does not say in which step it was met
/ refused 10 / { sub(/ (coef|symbol) .*/, "") }
{ print }
