module aliasplan

go 1.19
