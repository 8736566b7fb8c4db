[count(json-lines("/dev/stdin")), count(json-lines("/dev/fd/0")), count(json-lines("/proc/self/fd/0", "/dev/stdin"))]
