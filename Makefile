# What there is to make: `make` alone lists it.
.PHONY: help proved

help:
	@echo 'make proved   proves and builds what ./receiver and ./pack start, by rt of the Rattle kit'

proved:
	@tools/build --proved receiver_cli receiver
	@tools/build --proved packer_cli pack
