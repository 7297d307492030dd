module simbegyor/ndef

go 1.19
