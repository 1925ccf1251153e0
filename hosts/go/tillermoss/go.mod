module tillermoss

go 1.19
