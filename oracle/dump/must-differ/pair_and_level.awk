# a step's pair and level change places
/ refused .* symbol / { level = $NF; $NF = $(NF - 1); $(NF - 1) = level }
{ print }
