module example.org/journal

go 1.19
