# a second TNS order of 0 is not printed
/^tns .* 0$/ { sub(/ 0$/, "") }
{ print }
