module apigate

go 1.19
