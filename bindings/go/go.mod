module github.com/ciderglen/ciderglen-go

go 1.19
