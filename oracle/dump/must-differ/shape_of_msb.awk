# the shape is msb + 2*submode_lsb
/^sns .* shape [12]$/ { $NF = 3 - $NF }
{ print }
