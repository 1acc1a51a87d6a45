# `stop` has the offset of the field's content
/^stop 18 / { $3 += 3 }
{ print }
