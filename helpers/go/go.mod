module crashstates

go 1.19
