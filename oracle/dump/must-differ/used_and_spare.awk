# used and spare change places
/^used / { $0 = "used " $4 " spare " $2 }
{ print }
