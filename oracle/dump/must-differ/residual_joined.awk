# residual bits are not apart
/^residual / { count = $2; sub(/^residual [0-9]+ ?/, ""); gsub(/ /, ""); $0 = "residual " count ($0 == "" ? "" : " " $0) }
{ print }
