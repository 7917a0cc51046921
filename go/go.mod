module wanzoche

go 1.19
