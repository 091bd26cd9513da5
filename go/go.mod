module vuthgal.dev/go

go 1.19
