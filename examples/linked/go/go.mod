module nanobot.example/machine

go 1.19
