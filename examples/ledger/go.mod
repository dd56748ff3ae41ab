module example.org/ledger

go 1.19

require example.org/journal v0.0.0

replace example.org/journal => ../journal
