# what begins at 65,536 is the end
/^frame / { frames = $2 }
/^stop 18 65536$/ { $0 = "end " frames }
{ print }
