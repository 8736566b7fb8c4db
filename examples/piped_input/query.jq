json-lines("/dev/stdin")
