module example/transfer

go 1.19
