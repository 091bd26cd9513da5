module vuthgal.example/once

go 1.19

require vuthgal.dev/go v0.0.0

replace vuthgal.dev/go => ../../../go
