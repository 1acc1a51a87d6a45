# a frame without lines has the zero flag, whatever its gain
/^lines / { none = $2 == 0 }
/^seed / && none { $4 = 1 }
{ print }
